//! The reader and the writer beside the terminal.

mod common;

use common::{hex, packet, sealed, sealed_by_iso};
use second::crc::{bit_by_bit, START};
use second::iso::{sums, weighted};
use second::random::Random;
use second::refusal::Refusal;
use second::tc::{self, Method, Order, Telecommand};

const BOTH: [Method; 2] = [Method::Iso, Method::Crc];

fn order(data: &[u8]) -> Order<'_> {
    Order { pid: 5, count: 0, ack: 9, method: Method::Crc, service: 17, subtype: 1, data }
}

#[test]
fn the_reader_hands_every_field_back() {
    // By hand: the octets sum to 1268, 248 modulo 255, and weighted to 9439, 4; -(248 + 4) is 3.
    let octets = hex("1FF3 D234 0008 07 AB CD EF 112233 0304");
    assert_eq!(
        tc::read(&octets),
        Ok(Telecommand {
            apid: 0x7F3,
            count: 0x1234,
            checksum_flag: 0,
            ack: 7,
            service: 0xAB,
            subtype: 0xCD,
            pad: 0xEF,
            data: &[0x11, 0x22, 0x33],
        })
    );
    let octets = sealed("1FF3 D234 0008 17 AB CD EF 112233");
    let read = tc::read(&octets).expect("a good packet");
    assert_eq!((read.apid, read.checksum_flag, read.ack, read.pad), (0x7F3, 1, 7, 0xEF));
    let octets = sealed("185C C000 0005 19 11 01 00");
    let read = tc::read(&octets).expect("a good packet");
    assert_eq!((read.apid, read.checksum_flag, read.ack, read.data), (0x05C, 1, 9, &[][..]));
}

#[test]
fn the_reader_makes_its_four_checks() {
    let refusal = |text: &str| tc::read(&hex(text)).map(|read| read.apid);
    assert_eq!(refusal(""), Err(Refusal { number: 42, detail: 0 }));
    assert_eq!(refusal("185CC000000519110100"), Err(Refusal { number: 1, detail: 10 }));
    assert_eq!(refusal("185CC0000005191101000166"), Err(Refusal { number: 2, detail: 0x0167 }));
    assert_eq!(tc::read(&sealed("085CC000000519110100")), Err(Refusal { number: 16, detail: 2 }));
    assert_eq!(tc::read(&packet(0, 6, 2, &[0; 236])).map(|read| read.data.len()), Ok(236));
    assert_eq!(tc::read(&packet(0, 6, 2, &[0; 237])), Err(Refusal { number: 1, detail: 249 }));
}

#[test]
fn the_reader_makes_its_four_checks_where_the_flag_is_0() {
    let refusal = |text: &str| tc::read(&hex(text)).map(|read| read.apid);
    assert_eq!(refusal("185CC000000509110100"), Err(Refusal { number: 1, detail: 10 }));
    assert_eq!(refusal("185CC00000050911010002A8"), Ok(0x05C));
    assert_eq!(refusal("185CC00000050911010002A9"), Err(Refusal { number: 2, detail: 0x02A8 }));
    assert_eq!(refusal("185CC00000050911010003A8"), Err(Refusal { number: 2, detail: 0x02A8 }));
    assert_eq!(refusal("185CC0000005091101001AC0"), Err(Refusal { number: 2, detail: 0x02A8 }));
    // By hand: the octets sum to 324, 69 modulo 255, and weighted to 2558, 8; -(69 + 8) is 178.
    assert_eq!(refusal("085CC000000509110100B208"), Err(Refusal { number: 16, detail: 2 }));
    assert_eq!(refusal("085CC000000509110100B209"), Err(Refusal { number: 2, detail: 0xB208 }));
    for length in [0, 1, 235, 236] {
        let text = format!("185C C000 {:04X} 00 06 02 00 {}", length + 5, "5A".repeat(length));
        assert_eq!(tc::read(&sealed_by_iso(&text)).map(|read| read.data.len()), Ok(length));
    }
    let long = format!("185C C000 00F2 00 06 02 00 {}", "5A".repeat(237));
    assert_eq!(tc::read(&sealed_by_iso(&long)), Err(Refusal { number: 1, detail: 249 }));
}

/// The flag alone selects the method, whatever the other bits of its octet are.
#[test]
fn every_octet_with_the_flag() {
    for octet in 0..=255_u8 {
        let text = format!("185C C000 0005 {octet:02X} 11 01 00");
        let body = hex(&text);
        let (by_iso, by_crc) = (weighted(&body), bit_by_bit(START, &body));
        let flagged = octet & 16 != 0;
        let (right, wrong, detail) = if flagged {
            (sealed(&text), sealed_by_iso(&text), by_crc)
        } else {
            (sealed_by_iso(&text), sealed(&text), by_iso)
        };
        assert_ne!(by_iso, by_crc, "{octet:02X}");
        assert_eq!(tc::read(&wrong), Err(Refusal { number: 2, detail }), "{octet:02X}");
        match tc::read(&right) {
            Ok(read) => {
                assert!(octet < 32, "{octet:02X}");
                assert_eq!((read.checksum_flag, read.ack), (u8::from(flagged), octet % 16));
            }
            refused => {
                assert!(octet >= 32, "{octet:02X}");
                assert_eq!(refused, Err(Refusal { number: 16, detail: 5 }));
            }
        }
    }
}

#[test]
fn the_writer_writes_01_s_first_line() {
    let mut buffer = [0xEE; 14];
    assert_eq!(tc::write(&order(&[]), &mut buffer), Ok(12));
    assert_eq!(buffer[..], hex("185CC0000005191101000167 EEEE"));
    let mut buffer = [0xEE; 14];
    assert_eq!(tc::write(&Order { method: Method::Iso, ..order(&[]) }, &mut buffer), Ok(12));
    assert_eq!(buffer[..], hex("185CC00000050911010002A8 EEEE"));
}

#[test]
fn the_writer_s_refusals_in_order() {
    let long = [0; 237];
    let cases = [
        (Order { pid: 128, ..order(&[]) }, 100, 50),
        (Order { count: 16_384, ..order(&[]) }, 100, 50),
        (Order { ack: 16, ..order(&[]) }, 100, 50),
        (Order { pid: 255, ..order(&long) }, 0, 50),
        (order(&long), 300, 51),
        (order(&long), 0, 51),
        (order(&[]), 11, 52),
        (order(&[]), 0, 52),
        (order(&long[..236]), 247, 52),
    ];
    for (order, room, number) in cases {
        for method in BOTH {
            let mut buffer = vec![0xEE; room];
            assert_eq!(tc::write(&Order { method, ..order }, &mut buffer), Err(number));
            assert!(buffer.iter().all(|octet| *octet == 0xEE));
        }
    }
    for (method, header) in [(Method::Crc, "1FFC FFFF 00F1 1F 11 01 00"), (Method::Iso, "1FFC FFFF 00F1 0F 11 01 00")] {
        let edge = Order { pid: 127, count: 16_383, ack: 15, method, ..order(&long[..236]) };
        let mut buffer = [0xEE; 249];
        assert_eq!(tc::write(&edge, &mut buffer), Ok(248));
        assert_eq!(buffer[..10], hex(header));
        assert_eq!(buffer[248], 0xEE);
    }
}

#[test]
fn a_method_is_that_of_its_flag() {
    assert_eq!(BOTH.map(Method::flag), [0, 1]);
    assert_eq!([0, 1].map(Method::of_flag), BOTH.map(Some));
    assert!((2..=255).all(|flag| Method::of_flag(flag).is_none()));
}

#[test]
fn what_is_written_reads_back_and_is_written_again() {
    let mut random = Random::new(3);
    for length in 0..=236 {
        for method in BOTH {
            let data = random.octets(length);
            let order = Order {
                pid: random.below(128) as u8,
                count: random.below(16_384) as u16,
                ack: random.below(16) as u8,
                method,
                service: random.octet(),
                subtype: random.octet(),
                data: &data,
            };
            let mut buffer = [0; 248];
            assert_eq!(tc::write(&order, &mut buffer), Ok(length + 12));
            let packet = &buffer[..length + 12];
            let read = tc::read(packet).expect("it reads");
            assert_eq!(read.apid, u16::from(order.pid) * 16 + 12);
            assert_eq!((read.checksum_flag, read.pad), (method.flag(), 0));
            assert!(method == Method::Crc || sums(packet) == (0, 0));
            let again = Order {
                pid: (read.apid / 16) as u8,
                count: read.count,
                ack: read.ack,
                method: Method::of_flag(read.checksum_flag).expect("0 or 1"),
                service: read.service,
                subtype: read.subtype,
                data: read.data,
            };
            assert_eq!(again, order);
        }
    }
}
