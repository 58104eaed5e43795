# Reads lines "WHAT THREADS POSTS NANOSECONDS", sorted, and prints medians and their ratios.
{
    name = $1 " " $2
    posts = $3
    count[name]++
    spent[name, count[name]] = $4
}

# Nanoseconds a post.
function each(name, k) { return spent[name, k] / posts }

function median(name,  n) {
    n = count[name]
    if (n % 2) return each(name, (n + 1) / 2)
    return (each(name, n / 2) + each(name, n / 2 + 1)) / 2
}

function cost(title, name) {
    printf "%-52s %9.0f %9.0f %9.0f\n", title, median(name), each(name, 1), each(name, count[name])
}

function ratio(title, name, other) {
    printf "%-52s %9.2f\n", title, median(name) / median(other)
}

function rate(title, what,  threads) {
    for (threads = 1; threads <= 4; threads *= 2)
        printf "%-40s %d thread%s %10.0f %9.2f\n", title, threads, (threads > 1 ? "s" : " "), \
            1e9 / median(what " " threads), median(what " 1") / median(what " " threads)
}

END {
    printf "posts a run: %d, rounds: %d\n", posts, count["try_post 1"]
    printf "\n%-52s %9s %9s %9s\n", "one thread, nanoseconds a post", "median", "least", "most"
    cost("try_post", "try_post 1")
    cost("post", "post 1")
    cost("Mutex round the core with its journal", "book 1")
    cost("Mutex, the actions in the journal alone", "core 1")
    cost("try_post, refused since the journal is full", "try_post_full 1")
    cost("Mutex, refused since the journal is full", "book_full 1")
    printf "\nratios of medians\n"
    ratio("try_post to the Mutex", "try_post 1", "book 1")
    ratio("try_post to the Mutex, the journal alone", "try_post 1", "core 1")
    ratio("refused: try_post to the Mutex", "try_post_full 1", "book_full 1")
    printf "\n%-50s %10s %9s\n", "posts a second, all threads together", "median", "to one"
    rate("post", "post")
    rate("Mutex round the core with its journal", "book")
}
