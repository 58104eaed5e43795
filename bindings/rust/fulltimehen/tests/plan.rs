//! What a plan may say, and how it is refused.

use fulltimehen::{
    Configuration, ConfigurationFault, Core, Event, FdId, HistogramScale, KeepAlive, Plan,
    PlanError, Service, TcpOptions, WordFault,
};
use std::error::Error;
use std::time::Duration;

fn refused(plan: &Plan) -> PlanError {
    Core::new(plan).expect_err("the plan is refused")
}

fn begun(plan: &Plan) -> String {
    let mut core = Core::new(plan).expect("a plan").begin().expect("memory");
    core.last_told().expect("memory").record().to_owned()
}

/// A name that a script would skip or refuse is refused by name and cause, and no service vanishes.
#[test]
fn names_are_checked() {
    let long = "n".repeat(256);
    for (name, fault) in [
        ("#web", WordFault::Mark),
        ("%web", WordFault::Mark),
        (long.as_str(), WordFault::TooLong),
        ("", WordFault::Empty),
        ("we b", WordFault::Blank),
        ("web\n#", WordFault::Blank),
        ("web\u{a0}", WordFault::Blank),
    ] {
        let plan = Plan::new().service(Service::plain(name)).service(Service::plain("next"));
        assert_eq!(refused(&plan), PlanError::Word { word: name.to_owned(), fault }, "{name:?}");
    }
    let plan = Plan::new()
        .service(Service::plain("n".repeat(255)).tcp("127.0.0.1:80"))
        .service(Service::plain("eager"))
        .service(Service::plain("w#b%"));
    assert_eq!(begun(&plan), "start 0\nbind 0 0\nstart 1\nstart 2\nphase Running 0\n");
}

#[test]
fn addresses_are_checked() {
    let long = "a".repeat(4097);
    for (address, fault) in
        [("", WordFault::Empty), ("a b", WordFault::Blank), (long.as_str(), WordFault::TooLong)]
    {
        let word = address.to_owned();
        for service in [
            Service::plain("web").tcp(address),
            Service::plain("web").unix(address),
            Service::plain("web").claim(address),
        ] {
            let error = refused(&Plan::new().service(service));
            assert_eq!(error, PlanError::Word { word: word.clone(), fault }, "{address:?}");
        }
    }
    let at_most = Service::plain("web").unix("#".repeat(4096));
    assert!(Core::new(&Plan::new().service(at_most)).is_ok());
}

#[test]
fn counts_are_checked() {
    let endpoints =
        |count: usize| (0..count).fold(Service::plain("web"), |web, n| web.tcp(format!("a:{n}")));
    assert!(Core::new(&Plan::new().service(endpoints(64))).is_ok());
    let error = refused(&Plan::new().service(endpoints(65)));
    assert_eq!(error, PlanError::TooManyEndpoints { service: "web".to_owned() });

    let services = |count: usize| {
        (0..count).fold(Plan::new(), |plan, n| plan.service(Service::plain(format!("s{n}"))))
    };
    for count in [0, 1, 1023, 1024] {
        assert!(Core::new(&services(count)).is_ok(), "{count} services");
    }
    assert_eq!(refused(&services(1025)), PlanError::TooManyServices);
}

#[test]
fn dependencies_are_refused_by_the_service() {
    let services = |afters: &[&[u32]]| {
        let service = |(n, after): (usize, &&[u32])| {
            after.iter().fold(Service::plain(format!("s{n}")), |service, n| service.after(*n))
        };
        afters.iter().enumerate().map(service).fold(Plan::new(), Plan::service)
    };
    for (afters, service, after, other, message) in [
        (
            &[&[][..], &[0, 2]][..],
            "s1",
            2,
            None,
            "the service s1 starts after service 2, which isn't there",
        ),
        (
            &[&[], &[1]],
            "s1",
            1,
            Some("s1"),
            "the service s1 starts after service 1, s1, which waits for s1 already",
        ),
        (
            &[&[1], &[2], &[1]],
            "s2",
            1,
            Some("s1"),
            "the service s2 starts after service 1, s1, which waits for s2 already",
        ),
        (
            &[&[3], &[2], &[], &[2, 1, 0]],
            "s3",
            0,
            Some("s0"),
            "the service s3 starts after service 0, s0, which waits for s3 already",
        ),
    ] {
        for eager in [false, true] {
            let error = refused(&services(afters).eager(eager));
            let (service, other) = (service.to_owned(), other.map(str::to_owned));
            assert_eq!(error, PlanError::Dependency { service, after, other });
            assert_eq!(error.to_string(), message);
        }
    }
    let boot = Service::bootstrap("boot").tcp("a:1");
    assert_eq!(
        refused(&Plan::new().service(boot)),
        PlanError::Bootstrap { service: "boot".to_owned() }
    );
}

/// Each option of an endpoint and of a service comes to the core.
#[test]
fn options_are_said_by_type() {
    let keepalive = KeepAlive {
        idle: Duration::from_secs(60),
        interval: Duration::from_nanos(7),
        count: 5,
        user_timeout: Duration::MAX,
    };
    let options = TcpOptions::new().keepalive(keepalive).dscp(255).sndbuf(4096).rcvbuf(8192);
    let web =
        Service::plain("web").unix("/a").tcp_with("a:1", options).claim("a:2").undeclared(true);
    let mut core = Core::new(&Plan::new().service(web)).expect("a plan").begin().expect("memory");
    for event in ["bound 0 0 1", "bound 0 1 2", "arrived 0 1 3 -"] {
        let event: Event = event.parse().expect("an event");
        core.step(&event).expect("it fits");
    }
    assert_eq!(
        core.last_told().expect("memory").record(),
        "got arrived 0 1 3 -\nsettings 3 nodelay \
         keepalive=60000000000,7,5,18446744073709551615 dscp=255 sndbuf=4096 rcvbuf=8192\n"
    );
}

/// A descriptor that an older server hands over is kept for a claimed address, and any where a service is
/// undeclared.
#[test]
fn claims_and_undeclared_services_keep_what_comes() {
    for (service, closes) in [
        (Service::plain("web"), true),
        (Service::plain("web").claim("a:1"), false),
        (Service::plain("web").undeclared(true), false),
    ] {
        let plan = Plan::new().eager(true).upgrade(true).service(service);
        let mut core = Core::new(&plan).expect("a plan").begin().expect("memory");
        let received = Event::Received { bytes: b"a:1".to_vec(), fds: vec![FdId(9)] };
        let told = core.step(&received).expect("it fits");
        assert_eq!(told.record().contains("close 9\n"), closes, "{plan:?}");
    }
}

/// Texts of all kinds go through the text of a configuration.
#[test]
fn texts_are_quoted() {
    for text in [
        "/a \"b\"\\c",
        "a: b",
        "#",
        "null",
        "~",
        "",
        "'",
        "a\tb\r\nc",
        "[]",
        "%conf",
        "- a",
        "ends:",
    ] {
        let configuration = Configuration::new()
            .upgrade_sock(text)
            .user(text.to_owned())
            .client_bind_to_ipv4([text.to_owned(), text.to_owned()]);
        assert_eq!(configuration.to_string().parse(), Ok(configuration.clone()), "{text:?}");
        assert!(Core::new(&Plan::new().configuration(configuration)).is_ok(), "{text:?}");
    }
}

#[test]
fn every_key_goes_there_and_back() {
    let text = "version: 2\ndaemon: true\nerror_log: /a\npid_file: /b\nupgrade_sock: /c\nuser: d\ngroup: e\n\
        working_directory: /f\nthreads: 3\nlistener_tasks_per_fd: 4\nwork_stealing: false\n\
        runtime_enable_alt_timer: true\nca_file: /g\ngrace_period_seconds: 5\n\
        graceful_shutdown_timeout_seconds: 6\nclient_bind_to_ipv4:\n- 10.0.0.1\nclient_bind_to_ipv6:\n\
        - \"[::1]\"\nupstream_keepalive_pool_size: 7\nupstream_connect_offload_threadpools: 8\n\
        upstream_connect_offload_thread_per_pool: 9\ndownstream_tls_offload_threadpools: 10\n\
        downstream_tls_offload_thread_per_pool: 11\nupstream_debug_ssl_keylog: true\nmax_retries: 12\n\
        upgrade_sock_connect_accept_max_retries: 13\nmax_blocking_threads: 14\n\
        blocking_threads_ttl_seconds: 15\nfast_timeout_to_tokio_threshold_seconds: null\n\
        runtime_metrics_poll_time_histogram: true\nruntime_metrics_poll_time_histogram_scale: log\n\
        runtime_metrics_poll_time_histogram_resolution_micros: 16\n\
        runtime_metrics_poll_time_histogram_buckets: 17\ndaemon_wait_for_ready: true\n\
        daemon_ready_timeout_seconds: 18\ndaemon_notify_timeout_seconds: 19\n";
    let configuration: Configuration = text.parse().expect("a configuration");
    assert_eq!(configuration.to_string(), text);
    assert_eq!(configuration.grace_period_seconds, Some(5));
    assert_eq!(configuration.runtime_metrics_poll_time_histogram_scale, Some(HistogramScale::Log));
    assert_eq!(configuration.client_bind_to_ipv6, ["[::1]"]);
    let plan = Plan::new().configuration(configuration);
    assert!(plan.script().starts_with(&format!("%conf\n{text}%services\n")));
    assert!(Core::new(&plan).is_ok());
}

/// The key, its line, and what would be taken.
#[test]
fn configurations_are_refused_by_line_and_key() {
    for (text, line, key, fault, message) in [
        (
            "version: 1\nthreads: many\n",
            2,
            Some("threads"),
            ConfigurationFault::Value,
            "threads: many isn't taken; threads takes a number in decimal digits, without sign or leading zero",
        ),
        (
            "threads 2\n",
            1,
            None,
            ConfigurationFault::Line,
            "the line is no setting; a line of the configuration is KEY: VALUE or a comment behind #",
        ),
        (
            "# a\n\nmax_blocking_threads: 0\n",
            3,
            Some("max_blocking_threads"),
            ConfigurationFault::Unfit,
            "no server can run with this value of max_blocking_threads; it takes a number from 1 on",
        ),
    ] {
        let error = text.parse::<Configuration>().expect_err("it is refused");
        assert_eq!((error.line(), error.key(), error.fault()), (Some(line), key, fault), "{text}");
        assert_eq!(error.message(), message);
        assert_eq!(error.to_string(), format!("line {line}: {message}"));
    }
    let plan = Plan::new().configuration(Configuration::new().listener_tasks_per_fd(0_u64));
    let error = refused(&plan);
    assert_eq!(
        error.source().expect("a cause").to_string(),
        "no server can run with this value of listener_tasks_per_fd; it takes a number from 1 on"
    );
    let notes = Configuration::misspelled("threadz: 2\nother: 1\nDaemon: true\n");
    assert_eq!(
        notes,
        [
            "line 1: threadz is no key and is skipped; did you mean threads?",
            "line 2: other is no key and is skipped; known keys near it: user version threads",
            "line 3: Daemon is no key and is skipped; did you mean daemon?",
        ]
    );
}

#[test]
fn scripts_are_refused_by_line() {
    let script = Plan::from_script("%conf\nthreads: many\n%services\n%events\n");
    let PlanError::Configuration(error) = refused(&script) else { panic!("of the configuration") };
    assert_eq!((error.line(), error.key()), (Some(2), Some("threads")));
    let script = Plan::from_script("%conf\n%services\nweb plin\n%events\n");
    assert_eq!(refused(&script), PlanError::Line { line: 3, text: "web plin".to_owned() });
}

#[test]
fn a_replay_has_the_events_of_a_record() {
    let plan = Plan::new().service(Service::plain("web").tcp("a:1")).test(true).upgrade(true);
    let record = "start 0\nbind 0 0\nphase Running 0\ngot bound 0 0 3\ngot signal fast\nclose 3\n";
    assert_eq!(plan.replay(record), format!("{}bound 0 0 3\nsignal fast\n", plan.script()));
    assert_eq!(plan.words(), ["--upgrade", "--test"]);
    let script = Plan::from_script("%conf\n%services\n%events\nmoment 1\nsignal fast\n");
    assert_eq!(script.replay(record), "%conf\n%services\n%events\nbound 0 0 3\nsignal fast\n");
}

/// Numbers that look random (xorshift).
fn draw(state: &mut u64, most: usize) -> usize {
    *state ^= *state << 13;
    *state ^= *state >> 7;
    *state ^= *state << 17;
    (*state >> 11) as usize % most
}

/// The library, whose reader is proved, takes the same texts, and refuses the others at the same lines.
#[test]
fn the_reader_is_the_librarys() {
    let pieces = [
        "threads",
        "user",
        "client_bind_to_ipv4",
        "daemon_ready_timeout_seconds",
        "a.b-c",
        ":",
        ":",
        ": ",
        ": ",
        "0",
        "1",
        "01",
        "18446744073709551616",
        "true",
        "null",
        "~",
        "[]",
        "'",
        "''",
        "\"",
        "\\",
        "\\n",
        "-",
        "- ",
        "---",
        "#",
        " #",
        " ",
        "\t",
        "\n",
        "\n",
        "\n",
        "\r\n",
        "%",
        "a",
        "é",
        "linear",
    ];
    let mut state = 7;
    let (mut taken, mut refused) = (0, 0);
    for _ in 0..20_000 {
        let count = 1 + draw(&mut state, 12);
        let text: String = (0..count).map(|_| pieces[draw(&mut state, pieces.len())]).collect();
        let here = text.parse::<Configuration>();
        let script = Plan::from_script(&format!("%conf\n{text}\n%services\n%events\n"));
        match (here, Core::new(&script)) {
            (Ok(configuration), Ok(_)) => {
                taken += 1;
                assert_eq!(configuration.to_string().parse(), Ok(configuration), "{text:?}");
            }
            (Err(here), Err(PlanError::Configuration(there))) => {
                refused += 1;
                assert_eq!(here.key(), there.key(), "{text:?}");
                assert_eq!(here.fault(), there.fault(), "{text:?}");
                assert_eq!(here.line().map(|line| line + 1), there.line(), "{text:?}");
            }
            (here, there) => panic!("{text:?}: {here:?}, {there:?}"),
        }
    }
    assert!(taken > 1000 && refused > 1000, "{taken} taken, {refused} refused");
}
