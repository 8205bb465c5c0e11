//! Slave ID responses: records that are some, or nearly, and identifiers to write.

use crate::cases::wrapper;
use crate::check::{hex, Checked, Checker};
use crate::library;
use crate::slaves::identifier;
use reference::Header;
use vbus::Identifiers;

const RESPONSE: Header = Header {
    version: 0x30,
    destination: 0x7731,
    source: 0x2010,
    command: 0x23,
};

impl Checker {
    /// Reads a record, which may be a slave ID response, and holds the answer to the rule.
    fn slave_id_read(&mut self, header: Header, payload: &[u8]) -> Checked<()> {
        let id = self.read_slave_id(header, payload)?;
        let what = || format!("the slave ID of {header:X?}, {}", hex(payload));
        let telegram = header.version == 0x30 || header.version == 0x31;
        let response =
            telegram && header.command == 0x23 && payload.len() == 7 && payload.last() == Some(&0);
        let refusals = if response { &[][..] } else { &[18] };
        self.first_given("read_slave_id", id.number, refusals, what)?;
        let same = match vbus::read_slave_id(wrapper(header), payload) {
            Ok(wrapped) => {
                let bytes = [id.product.to_le_bytes(), id.device.to_le_bytes()];
                id.number == 0
                    && bytes.map(|bytes| bytes[3]) == [0, 0]
                    && [&bytes[0][..3], &bytes[1][..3], &[0]].concat() == payload
                    && u32::from(id.week) * 131_072 + id.serial == id.device
                    && (id.week < 128 && id.serial < 131_072)
                    && (wrapped.product, wrapped.device) == (id.product, id.device)
                    && (wrapped.week, wrapped.serial) == (id.week, id.serial)
            }
            Err(error) => error.number() == id.number,
        };
        self.holds(same, what)
    }

    /// Writes a slave ID response, holds the answer to the rule, and reads it again.
    fn slave_id_written(
        &mut self,
        [destination, source]: [u16; 2],
        identifiers: [u32; 2],
        room: usize,
    ) -> Checked<()> {
        let (written, stream) = self.write_slave_id(destination, source, identifiers, room)?;
        let what = || {
            format!("the slave ID {identifiers:X?} from {source:X} to {destination:X} in {room}")
        };
        let lines = [
            (18, identifiers.iter().any(|id| *id > 0xFF_FFFF)),
            (2, (destination | source) & 0x8080 != 0),
            (5, room < 17),
        ];
        let applying = lines.into_iter().filter(|(_, applies)| *applies);
        let refusals: Vec<u32> = applying.map(|(number, _)| number).collect();
        self.first_given("write_slave_id", written.number, &refusals, what)?;
        let [product, device] = identifiers;
        let mut out = vec![0; room];
        let wrapped = vbus::write_slave_id(
            destination,
            source,
            Identifiers { product, device },
            &mut out,
        );
        if written.number != 0 {
            let same = wrapped.is_err_and(|error| error.number() == written.number);
            return self.holds(same && out == vec![0; room], what);
        }
        let mut payload = [0; 7];
        let found = library::next(&stream, 0, &mut payload);
        let sent = Header {
            destination,
            source,
            ..RESPONSE
        };
        let id = library::read_slave_id(found.header, &payload);
        let same = wrapped == Ok(17)
            && out[..17] == stream
            && (found.position, found.length, found.payload_length) == (0, 17, 7)
            && found.header == sent
            && (id.number, id.product, id.device) == (0, product, device);
        self.holds(same, what)
    }

    /// A record that is a slave ID response, or is wrong in one way or two; and identifiers to write.
    pub fn random_slave_id(&mut self) -> Checked<()> {
        let rng = &mut self.rng;
        let mut header = Header {
            version: rng.pick(&[0x30, 0x31]),
            destination: rng.word(),
            source: rng.word(),
            ..RESPONSE
        };
        let mut payload = rng.bytes(7);
        payload[6] = 0;
        for _ in 0..rng.pick(&[0, 0, 1, 1, 2]) {
            match rng.below(5) {
                0 => header.version = [0x10, 0x20, 0x32, rng.byte()][rng.below(4)],
                1 => header.command ^= 1 << rng.below(16),
                2 => header.command = rng.word(),
                3 => payload.resize([0, 6, 8, rng.below(40)][rng.below(4)], 0),
                _ => payload
                    .iter_mut()
                    .skip(6)
                    .for_each(|last| *last = rng.byte()),
            }
        }
        let low = !rng.once_in(4);
        let addresses = [header.destination, header.source];
        let addresses = addresses.map(|address| if low { address & 0x7F7F } else { address });
        let identifiers = [identifier(rng), identifier(rng)];
        let room = rng.below(21);
        self.slave_id_read(header, &payload)?;
        self.slave_id_written(addresses, identifiers, room)
    }

    /// Every version, command, payload length and payload byte of a record to read; every address bit
    /// and identifier's width to write, with every room around the need.
    pub fn every_slave_id(&mut self) -> Checked<()> {
        let payload = [0x81, 0x02, 0x83, 0x04, 0x85, 0x86, 0x00];
        for version in 0..=255 {
            let header = Header {
                version,
                ..RESPONSE
            };
            self.slave_id_read(header, &payload)?;
        }
        for command in 0..=u16::MAX {
            for version in [0x10, 0x30, 0x31] {
                let header = Header {
                    version,
                    command,
                    ..RESPONSE
                };
                self.slave_id_read(header, &payload)?;
            }
        }
        for length in 0..=530 {
            self.slave_id_read(RESPONSE, &vec![0; length])?;
        }
        for at in 0..7 {
            for byte in 0..=255 {
                let mut payload = payload;
                payload[at] = byte;
                self.slave_id_read(RESPONSE, &payload)?;
            }
        }
        let plain = [RESPONSE.destination, RESPONSE.source];
        for bit in 0..32 {
            let mut addresses = plain;
            addresses[bit / 16] ^= 1 << (bit % 16);
            let header = Header {
                destination: addresses[0],
                source: addresses[1],
                ..RESPONSE
            };
            self.slave_id_read(header, &payload)?;
            for identifier in [1 << bit, u32::MAX >> bit] {
                for identifiers in [[identifier, 0], [0, identifier], [identifier; 2]] {
                    for room in 0..=20 {
                        self.slave_id_written(plain, identifiers, room)?;
                        self.slave_id_written(addresses, identifiers, room)?;
                    }
                }
            }
        }
        Ok(())
    }
}
