//! Octets of W lines for the generators: written, refused in each way and bad, with either checksum flag.

use crate::control_rows::{Marked, METHODS};
use crate::random::Random;
use crate::sample_control::{last_two, mark};
use crate::tc::{self, Method, Order};

/// The octets before the data.
pub const HEAD_OCTETS: usize = 9;
/// Flags that are none: the first few above 1, the flag as it stands in its octet, and the largest.
pub const BAD_FLAGS: [u8; 8] = [2, 3, 4, 16, 17, 128, 254, 255];
const DATA_TOO_LONG: u64 = tc::LONGEST_DATA as u64 + 1;

/// What a W line is to be.
#[derive(Clone, Copy, Debug, PartialEq, Eq)]
pub enum Way {
    Written(Method),
    /// Those octets of the error control stand for 0.
    Marked(Method, Marked),
    Pid(Method),
    Count(Method),
    Ack(Method),
    Data(Method),
    Room(Method),
    /// Refused by 50, and by 51 and 52 as well were they asked first.
    FieldOfAll(Method),
    /// Refused by 51, and by 52 as well.
    DataOfBoth(Method),
    BadFlag(u8),
    /// A bad flag, and a field that 50 would refuse.
    BadFlagAndField(u8),
    /// An octet fewer than a line has.
    Cut(Method),
}

/// The fields of a W line.
#[derive(Clone)]
struct Fields {
    pid: u8,
    count: u16,
    ack: u8,
    flag: u8,
    service: u8,
    subtype: u8,
    room: u16,
    data: Vec<u8>,
}

/// Every way.
pub fn ways() -> Vec<Way> {
    let mut ways = Vec::new();
    for method in METHODS {
        ways.push(Way::Written(method));
        ways.extend([Marked::First, Marked::Second, Marked::Both].map(|marked| Way::Marked(method, marked)));
        ways.extend([Way::Pid(method), Way::Count(method), Way::Ack(method), Way::Data(method), Way::Room(method)]);
        ways.extend([Way::FieldOfAll(method), Way::DataOfBoth(method), Way::Cut(method)]);
    }
    ways.extend(BAD_FLAGS.map(Way::BadFlag));
    ways.extend(BAD_FLAGS.map(Way::BadFlagAndField));
    ways
}

/// The octets of a line of that way, for the PID if it is to be written.
pub fn octets(random: &mut Random, pid: u8, way: Way) -> Vec<u8> {
    let mut fields = good(random, pid);
    match way {
        Way::Written(method) => fields.flag = method.flag(),
        Way::Marked(method, marked) => fields.choose(random, method, marked),
        Way::Pid(method) => {
            fields.flag = method.flag();
            fields.pid = random.between(128, 255) as u8;
        }
        Way::Count(method) => {
            fields.flag = method.flag();
            fields.count = random.pick(&[16_384, 16_385, 32_768, 65_535]);
        }
        Way::Ack(method) => {
            fields.flag = method.flag();
            fields.ack = random.between(16, 255) as u8;
        }
        Way::Data(method) => {
            fields.flag = method.flag();
            fields.lengthen(random);
            fields.room = fields.exact() + random.below(3) as u16;
        }
        Way::Room(method) => {
            fields.flag = method.flag();
            fields.room = random.pick(&[0, fields.exact() / 2, fields.exact() - 1]);
        }
        Way::FieldOfAll(method) => {
            fields.flag = method.flag();
            fields.lengthen(random);
            fields.room = random.below(u64::from(fields.exact())) as u16;
            fields.spoil(random);
        }
        Way::DataOfBoth(method) => {
            fields.flag = method.flag();
            fields.lengthen(random);
            fields.room = random.below(u64::from(fields.exact())) as u16;
        }
        Way::BadFlag(flag) => fields.flag = flag,
        Way::BadFlagAndField(flag) => {
            fields.flag = flag;
            fields.spoil(random);
        }
        Way::Cut(method) => {
            fields.flag = method.flag();
            return fields.octets()[..HEAD_OCTETS - 1].to_vec();
        }
    }
    fields.octets()
}

/// The packet that a line with these octets writes, if it does.
pub fn written(octets: &[u8]) -> Option<Vec<u8>> {
    let (&[pid, count_upper, count_lower, ack, flag, service, subtype, room_upper, room_lower], data) =
        octets.split_first_chunk::<HEAD_OCTETS>()?;
    let count = u16::from_be_bytes([count_upper, count_lower]);
    let order = Order { pid, count, ack, method: Method::of_flag(flag)?, service, subtype, data };
    let mut packet = vec![0; usize::from(u16::from_be_bytes([room_upper, room_lower]))];
    let length = tc::write(&order, &mut packet).ok()?;
    packet.truncate(length);
    Some(packet)
}

/// The octets of a line that writes the packet in just its room, but for its pad, which is 0 then.
pub fn rewriting(packet: &[u8]) -> Vec<u8> {
    let [id_upper, id_lower, count_upper, count_lower, _, _, flag_and_ack, service, subtype, _, data @ .., _, _] =
        packet
    else {
        return Vec::new();
    };
    let pid = (u16::from_be_bytes([*id_upper, *id_lower]) >> 4) as u8 & 0x7F;
    let fields = Fields {
        pid,
        count: u16::from_be_bytes([*count_upper, *count_lower]) & 0x3FFF,
        ack: flag_and_ack & 0x0F,
        flag: flag_and_ack >> 4 & 1,
        service: *service,
        subtype: *subtype,
        room: packet.len() as u16,
        data: data.to_vec(),
    };
    fields.octets()
}

/// Fields that are written in just their room, or in somewhat more.
fn good(random: &mut Random, pid: u8) -> Fields {
    let longest = tc::LONGEST_DATA as u64;
    let any = random.between(0, longest);
    let length = random.pick(&[0, 1, 2, 8, any, longest]) as usize;
    let mut fields = Fields {
        pid: pid & 0x7F,
        count: random.below(16_384) as u16,
        ack: random.below(16) as u8,
        flag: 0,
        service: random.octet(),
        subtype: random.octet(),
        room: 0,
        data: random.octets(length),
    };
    fields.room = fields.exact() + random.pick(&[0, 0, 1, 5]);
    fields
}

impl Fields {
    /// The octets of the packet.
    fn exact(&self) -> u16 {
        (self.data.len() + tc::SHORTEST) as u16
    }

    fn lengthen(&mut self, random: &mut Random) {
        let any = random.between(DATA_TOO_LONG, 1_000);
        let length = random.pick(&[DATA_TOO_LONG, DATA_TOO_LONG + 1, any]) as usize;
        self.data = random.octets(length);
    }

    /// Makes one field or more such that 50 refuses.
    fn spoil(&mut self, random: &mut Random) {
        let which = random.between(1, 7);
        if which & 1 != 0 {
            self.pid |= 0x80;
        }
        if which & 2 != 0 {
            self.count |= 0x4000;
        }
        if which & 4 != 0 {
            self.ack |= 0x10;
        }
    }

    /// Chooses the last two octets of the data, and the count where they do not do.
    fn choose(&mut self, random: &mut Random, method: Method, marked: Marked) {
        self.flag = method.flag();
        let length = self.data.len().clamp(2, 12);
        self.data.resize(length, 0);
        self.room = self.exact();
        let mut packet = self.packet(method);
        if let Some((body, _)) = packet.split_last_chunk_mut::<2>() {
            let places = last_two(body);
            mark(random, body, method, marked, places);
            self.count = u16::from_be_bytes([body[2], body[3]]) & 0x3FFF;
            self.data = body[10..].to_vec();
        }
    }

    fn packet(&self, method: Method) -> Vec<u8> {
        let Fields { pid, count, ack, service, subtype, ref data, .. } = *self;
        let mut packet = vec![0; tc::LONGEST];
        let length = tc::write(&Order { pid, count, ack, method, service, subtype, data }, &mut packet);
        packet.truncate(length.unwrap_or(0));
        packet
    }

    fn octets(&self) -> Vec<u8> {
        let [count_upper, count_lower] = self.count.to_be_bytes();
        let [room_upper, room_lower] = self.room.to_be_bytes();
        let mut octets = vec![self.pid, count_upper, count_lower, self.ack, self.flag];
        octets.extend_from_slice(&[self.service, self.subtype, room_upper, room_lower]);
        octets.extend_from_slice(&self.data);
        octets
    }
}
