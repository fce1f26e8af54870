//! The calls as a host makes them: each answers what document 01 says, and each refusal has its number.
use kohlsilk::{
    flags, Answer, Engine, Message, Name, Refusal, Reply, GROUP, LOCATION_SIZE, NAMES, NAME_SIZE, OUTBOX_SIZE, RECORD_SIZE, SUBSCRIPTIONS,
    TIME_MAX, TYPE_SIZE,
};
use std::net::{Ipv4Addr, SocketAddrV4};

const LINK: u32 = flags::UP | flags::RUNNING | flags::MULTICAST;
const HERE: Ipv4Addr = Ipv4Addr::new(10, 0, 0, 1);
const SEARCHER: SocketAddrV4 = SocketAddrV4::new(Ipv4Addr::new(10, 0, 0, 9), 5000);

fn outbox() -> Vec<u8> {
    vec![165; OUTBOX_SIZE]
}

/// An engine with one link and one address, and an outbox.
fn serving() -> (Engine, Vec<u8>) {
    let (mut engine, mut outbox) = (Engine::new(0, 0).unwrap(), outbox());
    engine.new_link(1, LINK, 0, &mut outbox).unwrap();
    engine.new_address(1, &HERE.octets(), &mut outbox).unwrap();
    (engine, outbox)
}

fn refusal(answer: Result<Answer, Refusal>) -> Option<Refusal> {
    answer.err()
}

fn search(target: &str, mx: &str) -> Vec<u8> {
    format!("M-SEARCH * HTTP/1.1\r\nST: {target}\r\nMX: {mx}\r\n\r\n").into()
}

#[test]
fn a_lone_reply_goes_to_its_searcher() {
    let (mut engine, mut outbox) = serving();
    engine.handle_timeout(0, &mut outbox).unwrap();
    engine.advertise("u1", "t:2", "http://h:80/d", &mut outbox).unwrap();
    let answer = engine.on_data(100, SEARCHER, HERE, &search("t:1", "1")).unwrap();
    assert_eq!((answer.matched, answer.joined, answer.waiting, answer.poll), (1, 0, 1, 100));
    assert_eq!((engine.waiting(), engine.poll()), (1, 100));
    assert_eq!(engine.handle_timeout(99, &mut outbox).unwrap().records, 0);
    let answer = engine.handle_timeout(100, &mut outbox).unwrap();
    assert_eq!((answer.alone, answer.group, answer.waiting), (1, 0, 0));
    let records: Vec<_> = answer.records_in(&outbox).collect();
    assert_eq!((records.len(), records[0].destination, records[0].source), (1, SEARCHER, HERE));
    let response = Message::Response { search_target: "t:1", unique_service_name: "u1", location: "http://10.0.0.1:80/d" };
    assert_eq!(kohlsilk::parse(records[0].message), Ok(response));
}

#[test]
fn a_name_that_leaves_says_so_and_drops_its_reply() {
    let (mut engine, mut outbox) = serving();
    engine.advertise("u1", "t", "", &mut outbox).unwrap();
    engine.on_data(0, SEARCHER, HERE, &search("ssdp:all", "3")).unwrap();
    let answer = engine.deadvertise("u1", &mut outbox).unwrap();
    assert_eq!((answer.records, answer.dropped, answer.waiting), (1, 1, 0));
    let record = answer.records_in(&outbox).next().unwrap();
    assert_eq!((record.destination, record.source), (GROUP, HERE));
    assert_eq!(kohlsilk::parse(record.message), Ok(Message::NotifyByeBye { notification_type: "t", unique_service_name: "u1" }));
    assert_eq!(engine.deadvertise("u1", &mut outbox).unwrap().records, 0);
}

/// The names as the library holds them: what was advertised, and for whom a reply waits.
#[test]
fn names_and_the_replies_that_wait() {
    let (mut engine, mut outbox) = serving();
    assert_eq!(engine.names().count(), 0);
    let longest = ["u".repeat(NAME_SIZE), "k".repeat(TYPE_SIZE), "l".repeat(LOCATION_SIZE)];
    engine.advertise(&longest[0], &longest[1], &longest[2], &mut outbox).unwrap();
    engine.advertise("a", "t", "http://caf\u{e9}/", &mut outbox).unwrap();
    engine.handle_timeout(0, &mut outbox).unwrap();
    let short = |reply| Name { name: "a", service_type: "t", location: "http://caf\u{e9}/", reply };
    let long = |reply| Name { name: &longest[0], service_type: &longest[1], location: &longest[2], reply };
    assert_eq!(engine.names().collect::<Vec<_>>(), [short(None), long(None)]);
    engine.on_data(100, SEARCHER, HERE, &search("t", "1")).unwrap();
    let alone = Reply::Searcher { due: 100, searcher: SEARCHER };
    assert_eq!(engine.names().collect::<Vec<_>>(), [short(Some(alone)), long(None)]);
    let other = SocketAddrV4::new(*SEARCHER.ip(), 5001);
    engine.on_data(105, other, HERE, &search("ssdp:all", "1")).unwrap();
    let second = Reply::Searcher { due: 105, searcher: other };
    assert_eq!(engine.names().collect::<Vec<_>>(), [short(Some(Reply::Group { due: 100 })), long(Some(second))]);
    engine.handle_timeout(105, &mut outbox).unwrap();
    engine.deadvertise("a", &mut outbox).unwrap();
    assert_eq!(engine.names().collect::<Vec<_>>(), [long(None)]);
}

#[test]
fn subscriptions_are_told_by_number() {
    let (mut engine, mut outbox) = serving();
    for service_type in ["t:2", "u:1", "t:1", "ssdp:all"] {
        assert_eq!(engine.subscribe(service_type, &mut outbox).unwrap().records, 1);
    }
    let mut buffer = [0; kohlsilk::MESSAGE_MAX];
    let notify = kohlsilk::build_notify(&mut buffer, "t:1", "u", "http://h/").unwrap();
    let answer = engine.on_data(0, SEARCHER, HERE, notify).unwrap();
    assert_eq!((answer.subscriptions().collect::<Vec<_>>(), answer.told), (vec![2, 3], 2));
    // All searches collapse to one, as a subscription is to everything.
    assert_eq!(engine.refresh(&mut outbox).unwrap().records, 1);
}

#[test]
fn a_link_that_turns_up_is_sent_to_and_a_deleted_one_answers_its_outcome() {
    let (mut engine, mut outbox) = serving();
    engine.advertise("u1", "t", "", &mut outbox).unwrap();
    assert_eq!(engine.new_link(1, flags::MULTICAST, 9, &mut outbox).unwrap().records, 0);
    assert_eq!(engine.refresh(&mut outbox).unwrap().records, 0);
    assert_eq!(engine.new_link(1, LINK, 0, &mut outbox).unwrap().records, 1);
    assert_eq!(engine.deleted_address(1, &HERE.octets()).unwrap().records, 0);
    assert_eq!(engine.refresh(&mut outbox).unwrap().records, 0);
    assert_eq!(engine.deleted_link(1, 7).unwrap().leave, 7);
    assert_eq!(engine.deleted_link(1, 7).unwrap().leave, 0);
}

#[test]
fn the_refresh_begins_anew() {
    let (mut engine, mut outbox) = serving();
    assert_eq!(engine.handle_timeout(0, &mut outbox).unwrap().poll, 6000);
    assert_eq!(engine.reset_refresh_timer(50).unwrap().poll, 50);
}

#[test]
fn the_host_is_refused() {
    let late = TIME_MAX + 1;
    assert_eq!(Refusal::from(Engine::new(0, late).unwrap_err()), Refusal::TIME_LATE);
    let (mut engine, mut outbox) = serving();
    assert_eq!(refusal(engine.handle_timeout(late, &mut outbox)), Some(Refusal::TIME_LATE));
    assert_eq!(refusal(engine.handle_timeout(late - 1, &mut outbox)), None);
    assert_eq!(refusal(engine.reset_refresh_timer(late)), Some(Refusal::TIME_LATE));
    let (mut engine, mut outbox) = serving();
    assert_eq!(refusal(engine.advertise("n".repeat(NAME_SIZE), "t".repeat(TYPE_SIZE), "l".repeat(LOCATION_SIZE), &mut outbox)), None);
    assert_eq!(refusal(engine.advertise("n".repeat(NAME_SIZE + 1), "t", "l", &mut outbox)), Some(Refusal::TEXT_OVER_SIZE));
    assert_eq!(refusal(engine.subscribe("t".repeat(TYPE_SIZE + 1), &mut outbox)), Some(Refusal::TEXT_OVER_SIZE));
    assert_eq!(refusal(engine.subscribe(b"\xff", &mut outbox)), Some(Refusal::TEXT_NOT_GOOD));
    assert_eq!(refusal(engine.advertise("u", "t", "l ", &mut outbox)), Some(Refusal::TEXT_NOT_GOOD));
    for k in 1..=NAMES {
        assert_eq!(
            refusal(engine.advertise(format!("{k}"), "t", "l", &mut outbox)),
            if k < NAMES { None } else { Some(Refusal::TABLE_FULL) }
        );
    }
    assert_eq!(refusal(engine.advertise("1", "other", "l", &mut outbox)), None);
    for k in 0..=SUBSCRIPTIONS {
        assert_eq!(refusal(engine.subscribe("t", &mut outbox)), if k < SUBSCRIPTIONS { None } else { Some(Refusal::TABLE_FULL) });
    }
}

#[test]
fn a_list_goes_on_after_a_refused_start() {
    let mut outbox = outbox();
    let mut engine = Engine::new(3, TIME_MAX + 1).unwrap_err().engine;
    assert_eq!((engine.waiting(), engine.poll()), (0, 0));
    let (refused, begun) =
        (engine.handle_timeout(0, &mut outbox).unwrap(), Engine::new(3, 0).unwrap().handle_timeout(0, &mut outbox).unwrap());
    assert_eq!(refused, begun);
    assert_ne!(refused.poll, Engine::new(4, 0).unwrap().handle_timeout(0, &mut outbox).unwrap().poll);
}

#[test]
fn peers_are_refused() {
    let (mut engine, _) = serving();
    let mut data = |datagram: &[u8]| refusal(engine.on_data(0, SEARCHER, HERE, datagram));
    assert_eq!(data(b""), Some(Refusal::DATAGRAM_EMPTY));
    assert_eq!(data(b"junk"), Some(Refusal::DATAGRAM_INVALID));
    assert_eq!(data(&search("t", "256")), Some(Refusal::DATAGRAM_INVALID));
    assert_eq!(data(&search("t", "255")), None);
    assert_eq!(data(&search("t", "0")), Some(Refusal::WAIT_ZERO));
    assert_eq!(data(&search(&"t".repeat(TYPE_SIZE + 1), "1")), Some(Refusal::TARGET_OVER_SIZE));
    assert_eq!(refusal(engine.on_data(TIME_MAX + 1, SEARCHER, HERE, b"")), Some(Refusal::TIME_LATE));
}

#[test]
fn news_is_refused() {
    let (mut engine, mut outbox) = serving();
    assert_eq!(refusal(engine.new_link(0, LINK, 0, &mut outbox)), Some(Refusal::INDEX_ZERO));
    assert_eq!(refusal(engine.deleted_link(0, 0)), Some(Refusal::INDEX_ZERO));
    assert_eq!(refusal(engine.new_address(1, &[1; 5], &mut outbox)), Some(Refusal::ADDRESS_LENGTH));
    assert_eq!(refusal(engine.deleted_address(1, &[])), Some(Refusal::ADDRESS_LENGTH));
    assert_eq!(refusal(engine.new_address(1, &[1; 16], &mut outbox)), None);
    assert_eq!(refusal(engine.new_address(1, &[1; 4], &mut outbox)), None);
    assert_eq!(refusal(engine.new_address(1, &[2; 4], &mut outbox)), Some(Refusal::LINKS_FULL));
    assert_eq!(refusal(engine.new_link(2, LINK, 19, &mut outbox)), Some(Refusal::JOIN_FAILED));
    assert_eq!(refusal(engine.new_link(2, LINK, 0, &mut outbox)), None);
    assert_eq!(refusal(engine.new_link(3, LINK, 0, &mut outbox)), None);
    assert_eq!(refusal(engine.new_link(4, LINK, 19, &mut outbox)), Some(Refusal::LINKS_FULL));
}

/// A refused call leaves the outbox, and tells waiting and poll of the engine as it was.
#[test]
fn a_refused_call_changes_nothing() {
    let (mut engine, mut bytes) = serving();
    engine.advertise("u1", "t", "l", &mut bytes).unwrap();
    engine.handle_timeout(0, &mut bytes).unwrap();
    engine.on_data(0, SEARCHER, HERE, &search("t", "1")).unwrap();
    let before = (engine.waiting(), engine.poll(), bytes.clone());
    assert_eq!(refusal(engine.advertise("u1", "t", "l\n", &mut bytes)), Some(Refusal::TEXT_NOT_GOOD));
    assert_eq!(refusal(engine.handle_timeout(u64::MAX, &mut bytes)), Some(Refusal::TIME_LATE));
    assert_eq!((engine.waiting(), engine.poll(), bytes), before);
    assert_eq!(before.0, 1);
}

/// What is behind the last record keeps its bytes, and an outbox that holds no records gives none, without a panic.
#[test]
fn records_of_any_outbox() {
    let (mut engine, mut bytes) = serving();
    let answer = engine.advertise("u1", "t", "l", &mut bytes).unwrap();
    assert_eq!(answer.records_in(&bytes).count(), 1);
    assert!(bytes[RECORD_SIZE..].iter().all(|byte| *byte == 165));
    assert_eq!(answer.records_in(&bytes[..RECORD_SIZE - 1]).count(), 0);
    assert_eq!(answer.records_in(&[255; RECORD_SIZE]).count(), 0);
    let many = Answer { records: usize::MAX, ..answer };
    assert_eq!(many.records_in(&[0; 3 * RECORD_SIZE + 7]).count(), 3);
}

/// Three addresses on two links that are up and one on a link that is down; three names; two subscriptions. The reply of `u1` waits for the group
/// and that of `u2` for a searcher, both since 100, and the salvo until 6,000.
fn busy() -> Engine {
    let (mut engine, mut outbox) = serving();
    for (index, address, flags) in [(1, [10, 0, 0, 2], LINK), (2, [10, 0, 2, 1], LINK), (3, [10, 0, 3, 1], flags::MULTICAST)] {
        engine.new_link(index, flags, 0, &mut outbox).unwrap();
        engine.new_address(index, &address, &mut outbox).unwrap();
    }
    engine.subscribe("a", &mut outbox).unwrap();
    engine.subscribe("b", &mut outbox).unwrap();
    for (name, service_type) in [("u1", "t"), ("u2", "v"), ("u3", "w")] {
        engine.advertise(name, service_type, "http://h/d", &mut outbox).unwrap();
    }
    engine.handle_timeout(0, &mut outbox).unwrap();
    engine.on_data(100, SEARCHER, HERE, &search("t", "1")).unwrap();
    for target in ["t", "v"] {
        engine.on_data(100, SocketAddrV4::new(*SEARCHER.ip(), 5001), HERE, &search(target, "1")).unwrap();
    }
    engine
}

/// What a host can see of an engine.
fn seen(engine: &Engine) -> (usize, u64, Vec<Name<'_>>) {
    (engine.waiting(), engine.poll(), engine.names().collect())
}

type Make = fn(&mut Engine, &mut [u8]) -> Result<Answer, Refusal>;

/// A call on `engine` that writes so many records needs an outbox for these, to the byte.
fn needs(engine: &Engine, what: &str, records: usize, need: usize, make: Make) {
    let (bytes, mut tried) = (RECORD_SIZE * records, engine.clone());
    assert_eq!(need, bytes, "{what}");
    if let Some(short) = bytes.checked_sub(1) {
        let mut outbox = vec![165; short];
        assert_eq!(refusal(make(&mut tried, &mut outbox)), Some(Refusal::OUTBOX_SHORT), "{what}");
        assert_eq!((seen(&tried), outbox), (seen(engine), vec![165; short]), "{what}");
    }
    let mut outboxes = [bytes, bytes + 7].map(|len| vec![165; len]);
    for outbox in &mut outboxes {
        let answer = make(&mut tried.clone(), outbox).unwrap();
        assert_eq!((answer.records, answer.records_in(outbox).count()), (records, records), "{what}");
    }
    assert_eq!(outboxes[1], [&outboxes[0][..], &[165; 7]].concat(), "{what}");
}

/// Document 02's formula at each call that sends.
#[test]
fn an_outbox_for_the_records_of_this_very_call() {
    let e = &busy();
    let (names, searches, addresses) = (3, 2, 2 + 1);
    let all = names + searches;
    needs(e, "subscribe", addresses, e.subscribe_need(), |e, outbox| e.subscribe("c", outbox));
    needs(e, "a new name", addresses, e.advertise_need(), |e, outbox| e.advertise("u4", "t", "l", outbox));
    needs(e, "a name that is held", addresses, e.advertise_need(), |e, outbox| e.advertise("u1", "t", "l", outbox));
    needs(e, "deadvertise", addresses, e.deadvertise_need("u1"), |e, outbox| e.deadvertise("u1", outbox));
    needs(e, "an unknown name", 0, e.deadvertise_need("u4"), |e, outbox| e.deadvertise("u4", outbox));
    needs(e, "refresh", all * addresses, e.refresh_need(), |e, outbox| e.refresh(outbox));
    needs(e, "before anything is due", 0, e.handle_timeout_need(99), |e, outbox| e.handle_timeout(99, outbox));
    let replies = addresses + 1;
    needs(e, "replies", replies, e.handle_timeout_need(100), |e, outbox| e.handle_timeout(100, outbox));
    let both = all * addresses + replies;
    needs(e, "salvo and replies", both, e.handle_timeout_need(6000), |e, outbox| e.handle_timeout(6000, outbox));
    needs(e, "a link that turns up", all, e.new_link_need(3, LINK), |e, outbox| e.new_link(3, LINK, 0, outbox));
    needs(e, "a link that is up", 0, e.new_link_need(1, LINK), |e, outbox| e.new_link(1, LINK, 0, outbox));
    needs(e, "a link that turns down", 0, e.new_link_need(1, flags::MULTICAST), |e, outbox| e.new_link(1, flags::MULTICAST, 0, outbox));
    needs(e, "an address", all, e.new_address_need(2, &[10, 0, 2, 2]), |e, outbox| e.new_address(2, &[10, 0, 2, 2], outbox));
    needs(e, "one that is held", 0, e.new_address_need(2, &[10, 0, 2, 1]), |e, outbox| e.new_address(2, &[10, 0, 2, 1], outbox));
    needs(e, "one on a link that is down", 0, e.new_address_need(3, &[1; 4]), |e, outbox| e.new_address(3, &[1; 4], outbox));
    needs(e, "one on an unknown link", 0, e.new_address_need(4, &[1; 4]), |e, outbox| e.new_address(4, &[1; 4], outbox));
    needs(e, "one of IPv6", 0, e.new_address_need(2, &[1; 16]), |e, outbox| e.new_address(2, &[1; 16], outbox));
}

/// One search, where a subscription is to everything; and replies to the group, where no address is left, need nothing.
#[test]
fn what_counts_once_or_not_at_all() {
    let (mut engine, mut outbox) = (busy(), outbox());
    engine.subscribe("ssdp:all", &mut outbox).unwrap();
    needs(&engine, "a search for all", (3 + 1) * 3, engine.refresh_need(), |e, outbox| e.refresh(outbox));
    needs(&engine, "the same to a link", 3 + 1, engine.new_link_need(3, LINK), |e, outbox| e.new_link(3, LINK, 0, outbox));
    engine.deleted_link(1, 0).unwrap();
    engine.deleted_link(2, 0).unwrap();
    needs(&engine, "a lone reply", 1, engine.handle_timeout_need(6000), |e, outbox| e.handle_timeout(6000, outbox));
}

/// A host that announces before its network is there lends nothing.
#[test]
fn a_call_that_sends_nothing_takes_an_empty_outbox() {
    let mut engine = Engine::new(0, 0).unwrap();
    assert_eq!(engine.advertise("u1", "t", "l", &mut []).unwrap().records, 0);
    assert_eq!(engine.subscribe("t", &mut []).unwrap().records, 0);
    assert_eq!(engine.new_link(1, flags::MULTICAST, 0, &mut []).unwrap().records, 0);
    assert_eq!(engine.new_address(1, &HERE.octets(), &mut []).unwrap().records, 0);
    assert_eq!(engine.refresh(&mut []).unwrap().records, 0);
    assert_eq!(engine.handle_timeout(0, &mut []).unwrap().poll, 6000);
    assert_eq!(engine.deadvertise("u1", &mut []).unwrap().records, 0);
    assert_eq!(engine.new_link(1, LINK, 0, &mut [165; RECORD_SIZE]).unwrap().records, 1);
}

/// The page behind a display: two records are enough for whatever comes.
#[test]
fn one_name_from_one_address_takes_two_records() {
    let (mut engine, mut outbox) = (Engine::new(0, 0).unwrap(), [165; 2 * RECORD_SIZE]);
    engine.new_link(1, LINK, 0, &mut outbox).unwrap();
    engine.new_address(1, &HERE.octets(), &mut outbox).unwrap();
    assert_eq!(engine.advertise("u1", "t", "http://h/d", &mut outbox).unwrap().records, 1);
    engine.on_data(0, SEARCHER, HERE, &search("t", "1")).unwrap();
    assert_eq!(engine.handle_timeout(10, &mut outbox).unwrap().records, 2);
    engine.new_link(1, flags::MULTICAST, 0, &mut outbox).unwrap();
    assert_eq!(engine.new_link(1, LINK, 0, &mut outbox).unwrap().records, 1);
    assert_eq!(engine.refresh(&mut outbox).unwrap().records, 1);
    assert_eq!(engine.deadvertise("u1", &mut outbox).unwrap().records, 1);
}

/// The outbox is looked at last.
#[test]
fn whatever_else_refuses_a_call_comes_first() {
    let mut engine = busy();
    assert_eq!(refusal(engine.handle_timeout(TIME_MAX + 1, &mut [])), Some(Refusal::TIME_LATE));
    assert_eq!(refusal(engine.handle_timeout(TIME_MAX, &mut [])), Some(Refusal::OUTBOX_SHORT));
    assert_eq!(refusal(engine.advertise("u1", "t", "l".repeat(LOCATION_SIZE + 1), &mut [])), Some(Refusal::TEXT_OVER_SIZE));
    assert_eq!(refusal(engine.advertise("u1", "t", "l".repeat(LOCATION_SIZE), &mut [])), Some(Refusal::OUTBOX_SHORT));
    assert_eq!(refusal(engine.subscribe("t ", &mut [])), Some(Refusal::TEXT_NOT_GOOD));
    assert_eq!(refusal(engine.new_link(0, LINK, 0, &mut [])), Some(Refusal::INDEX_ZERO));
    assert_eq!(refusal(engine.new_link(4, LINK, 19, &mut [])), Some(Refusal::LINKS_FULL));
    assert_eq!(refusal(engine.new_address(1, &[1; 5], &mut [])), Some(Refusal::ADDRESS_LENGTH));
    assert_eq!(refusal(engine.new_address(1, &[1; 4], &mut [])), Some(Refusal::LINKS_FULL));
    let mut outbox = outbox();
    for k in 0..NAMES {
        let full = refusal(engine.advertise(format!("n{k}"), "t", "l", &mut outbox));
        assert_eq!(full, if k < NAMES - 3 { None } else { Some(Refusal::TABLE_FULL) });
    }
    assert_eq!(refusal(engine.advertise("n8", "t", "l", &mut [])), Some(Refusal::TABLE_FULL));
    engine.deleted_link(3, 0).unwrap();
    assert_eq!(refusal(engine.new_link(4, LINK, 19, &mut [])), Some(Refusal::JOIN_FAILED));
}

#[test]
fn messages_are_built_and_read() {
    let mut buffer = [0; kohlsilk::MESSAGE_MAX];
    let response = Message::Response { search_target: "t", unique_service_name: "u", location: "caf\u{e9}" };
    assert_eq!(kohlsilk::parse(kohlsilk::build_response(&mut buffer, "t", "u", "caf\u{e9}").unwrap()), Ok(response));
    let search = Message::Search { search_target: "t", maximum_wait_sec: 5 };
    assert_eq!(kohlsilk::parse(kohlsilk::build_search(&mut buffer, "t").unwrap()), Ok(search));
    let byebye = Message::NotifyByeBye { notification_type: "t", unique_service_name: "" };
    assert_eq!(kohlsilk::parse(kohlsilk::build_byebye(&mut buffer, "t", "").unwrap()), Ok(byebye));
    assert_eq!(kohlsilk::build_notify(&mut buffer, "t", "u", "l".repeat(136)), Err(Refusal::TEXT_OVER_SIZE));
    assert_eq!(kohlsilk::build_search(&mut buffer[..86], "t"), Err(Refusal::BUFFER_SHORT));
    let longest = kohlsilk::build_notify(&mut buffer, "t".repeat(TYPE_SIZE), "u".repeat(NAME_SIZE), "l".repeat(135));
    assert_eq!(longest.unwrap().len(), kohlsilk::MESSAGE_MAX);
}

#[test]
fn refusals_in_words() {
    assert_eq!(Refusal::OUTBOX_SHORT.to_string(), "refused 2: the outbox is shorter than what this call needs");
    assert_eq!(Refusal::LINKS_FULL.number(), 13);
}
