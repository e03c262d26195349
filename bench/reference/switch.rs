//! Frames in, frames out: sections 6, 7.1 to 7.3, 8.2 and 8.3.
//!
//! A packet is run to its end when it comes, by the tables as they stand then, so that one version
//! of the tables is enough. What it gives is kept for twelve steps. For updates it is enough to
//! remember of which version the packets of the twelve latest steps were.

use crate::meaning::{self, Entry};
use crate::packet;
use crate::placement;
use crate::program::{Fault, OUT, Program};
use crate::update;
use std::fmt;
use std::io::{self, Read, Write};

const SLOTS: usize = 12;

const UNREADABLE: u8 = 1;
const OLDER_VERSION_UNDER_WAY: u8 = 12;
const NO_PROGRAM_OR_TWO: u8 = 13;

/// When a packet's frame is due.
#[derive(Clone, Copy, PartialEq, Eq)]
pub enum Timing {
    TwelveStepsLater,
    AtOnce,
}

/// Whose frame it is: packets are counted among packets, sources and updates together.
#[derive(Clone, Copy, Debug, PartialEq, Eq)]
pub enum Owner {
    Packet(u64),
    Answer(u64),
}

/// Takes the frames that are due, in their order.
trait Receiver {
    fn due(&mut self, owner: Owner, frame: &[u8]) -> io::Result<()>;
    /// Is called before input is waited for, so that answers do not wait as well.
    fn before_waiting(&mut self) -> io::Result<()>;
    /// Whether nothing more needs to be given.
    fn has_enough(&self) -> bool;
}

struct Writer<Output>(Output);

impl<Output: Write> Receiver for Writer<Output> {
    fn due(&mut self, _: Owner, frame: &[u8]) -> io::Result<()> {
        self.0.write_all(frame)
    }

    fn before_waiting(&mut self) -> io::Result<()> {
        self.0.flush()
    }

    fn has_enough(&self) -> bool {
        false
    }
}

/// Reads frames, and writes those that are due.
pub fn serve(input: impl Read, output: impl Write, timing: Timing) -> io::Result<()> {
    let mut writer = Writer(output);
    give(input, &mut writer, timing)?;
    writer.before_waiting()
}

/// How an output compares with what is due.
#[derive(Clone, Copy, Debug, PartialEq, Eq)]
pub enum Comparison {
    AsMeant,
    Differs(Owner),
    Extra,
}

impl fmt::Display for Comparison {
    fn fmt(&self, formatter: &mut fmt::Formatter) -> fmt::Result {
        match self {
            Comparison::AsMeant => write!(formatter, "as meant"),
            Comparison::Differs(Owner::Packet(number)) => write!(formatter, "packet {number}"),
            Comparison::Differs(Owner::Answer(number)) => write!(formatter, "answer {number}"),
            Comparison::Extra => write!(formatter, "extra"),
        }
    }
}

/// Holds an output against the frames that are due. Each frame says by its own bytes how long it
/// is, so two frames are equal if the output goes on with the bytes of the one that is due.
struct Judge<'output> {
    rest: &'output [u8],
    differs: Option<Owner>,
}

impl Receiver for Judge<'_> {
    fn due(&mut self, owner: Owner, frame: &[u8]) -> io::Result<()> {
        if self.differs.is_none() {
            match self.rest.strip_prefix(frame) {
                Some(rest) => self.rest = rest,
                None => self.differs = Some(owner),
            }
        }
        Ok(())
    }

    fn before_waiting(&mut self) -> io::Result<()> {
        Ok(())
    }

    fn has_enough(&self) -> bool {
        self.differs.is_some()
    }
}

pub fn compare(input: impl Read, output: &[u8]) -> io::Result<Comparison> {
    let mut judge = Judge {
        rest: output,
        differs: None,
    };
    give(input, &mut judge, Timing::TwelveStepsLater)?;
    Ok(match judge.differs {
        Some(owner) => Comparison::Differs(owner),
        None if judge.rest.is_empty() => Comparison::AsMeant,
        None => Comparison::Extra,
    })
}

fn give(input: impl Read, receiver: &mut impl Receiver, timing: Timing) -> io::Result<()> {
    let mut frames = FrameReader::new(input);
    let mut switch = Switch::new(timing);
    while !receiver.has_enough() {
        match frames.next(|| receiver.before_waiting())? {
            Input::Source(source) => {
                let result = switch.source(source);
                switch.answer(result, receiver)?;
            }
            Input::Update(bytes) => {
                let result = switch.update(bytes);
                switch.answer(result, receiver)?;
            }
            Input::Packet(bytes) => switch.packet(bytes, receiver)?,
            Input::Pause => switch.idle_step(receiver)?,
            Input::Cut(Kind::Source | Kind::Update) => {
                return switch.answer(Err(Fault::new(UNREADABLE, 0)), receiver);
            }
            // An unknown kind counts as the packet that would have the next number.
            Input::Cut(Kind::Packet) | Input::Unknown => {
                return receiver.due(Owner::Packet(switch.packets), &[18, UNREADABLE]);
            }
            Input::End => return Ok(()),
        }
    }
    Ok(())
}

/// What came in one of the twelve latest steps.
#[derive(Default)]
struct Came {
    /// The version of the packet; None if none came.
    version: Option<u64>,
    number: u64,
    /// The frame with which it leaves; empty if it is dropped, or was given already.
    frame: Vec<u8>,
}

struct Loaded {
    program: Program,
    /// The entries of each table.
    tables: Vec<Vec<Entry>>,
}

struct Switch {
    timing: Timing,
    loaded: Option<Loaded>,
    /// The number of updates that were taken.
    version: u64,
    latest: [Came; SLOTS],
    /// Which of the latest steps is the oldest: what came in it leaves in the next step.
    oldest: usize,
    /// How many packets came, refused ones included.
    packets: u64,
    /// How many sources and updates came.
    answers: u64,
}

impl Switch {
    fn new(timing: Timing) -> Self {
        Switch {
            timing,
            loaded: None,
            version: 0,
            latest: Default::default(),
            oldest: 0,
            packets: 0,
            answers: 0,
        }
    }

    fn source(&mut self, source: &[u8]) -> Result<(), Fault> {
        if self.loaded.is_some() {
            return Err(Fault::new(NO_PROGRAM_OR_TWO, 0));
        }
        let program = placement::load(source)?;
        let tables = vec![Vec::new(); program.tables.len()];
        self.loaded = Some(Loaded { program, tables });
        Ok(())
    }

    fn update(&mut self, bytes: &[u8]) -> Result<(), Fault> {
        let Some(loaded) = &mut self.loaded else {
            return Err(Fault::new(NO_PROGRAM_OR_TWO, 0));
        };
        let update = update::decode(&loaded.program, bytes)?;
        let newest = self.version;
        if self
            .latest
            .iter()
            .any(|came| came.version.is_some_and(|version| version < newest))
        {
            return Err(Fault::new(OLDER_VERSION_UNDER_WAY, 0));
        }
        for (table, entries) in update {
            loaded.tables[table] = entries;
        }
        self.version += 1;
        Ok(())
    }

    /// Answers a source or an update.
    fn answer(
        &mut self,
        result: Result<(), Fault>,
        receiver: &mut impl Receiver,
    ) -> io::Result<()> {
        let Fault { code, offset } = result.err().unwrap_or(Fault::new(0, 0));
        let offset = u32::try_from(offset).expect("offsets are within a length of four bytes");
        let mut frame = [17, code, 0, 0, 0, 0];
        frame[2..].copy_from_slice(&offset.to_be_bytes());
        let owner = Owner::Answer(self.answers);
        self.answers += 1;
        receiver.due(owner, &frame)
    }

    fn packet(&mut self, bytes: &[u8], receiver: &mut impl Receiver) -> io::Result<()> {
        let number = self.packets;
        self.packets += 1;
        let Some(loaded) = &self.loaded else {
            receiver.due(Owner::Packet(number), &[18, NO_PROGRAM_OR_TWO])?;
            return self.idle_step(receiver);
        };
        let Some(mut parsed) = packet::parse(&loaded.program, bytes) else {
            receiver.due(Owner::Packet(number), &[18, packet::REFUSED])?;
            return self.idle_step(receiver);
        };
        meaning::run(&loaded.program, &loaded.tables, &mut parsed.fields);

        let came = &mut self.latest[self.oldest];
        leave(came, receiver)?;
        came.version = Some(self.version);
        came.number = number;
        came.frame.clear();
        let port = parsed.fields[OUT] as u8;
        if port != 0 {
            // A packet leaves with as many bytes as it came with.
            let length = bytes.len() as u16;
            came.frame.extend_from_slice(&[16, port]);
            came.frame.extend_from_slice(&length.to_be_bytes());
            packet::deparse(&loaded.program, &parsed, bytes, &mut came.frame);
        }
        if self.timing == Timing::AtOnce {
            leave(came, receiver)?;
            came.frame.clear();
        }
        self.oldest = (self.oldest + 1) % SLOTS;
        Ok(())
    }

    fn idle_step(&mut self, receiver: &mut impl Receiver) -> io::Result<()> {
        let came = &mut self.latest[self.oldest];
        leave(came, receiver)?;
        came.version = None;
        came.frame.clear();
        self.oldest = (self.oldest + 1) % SLOTS;
        Ok(())
    }
}

fn leave(came: &Came, receiver: &mut impl Receiver) -> io::Result<()> {
    if came.frame.is_empty() {
        return Ok(());
    }
    receiver.due(Owner::Packet(came.number), &came.frame)
}

/// The frames that have a length.
#[derive(Clone, Copy, Debug, PartialEq, Eq)]
enum Kind {
    Source,
    Update,
    Packet,
}

/// What stands where a frame would begin.
enum Input<'bytes> {
    Source(&'bytes [u8]),
    Update(&'bytes [u8]),
    Packet(&'bytes [u8]),
    Pause,
    /// The input ends within the frame.
    Cut(Kind),
    /// A byte that is no kind of frame.
    Unknown,
    End,
}

/// Reads frames from a stream, as soon as each is whole.
struct FrameReader<Source> {
    input: Source,
    /// The bytes that were read; those before `start` are done with.
    buffer: Vec<u8>,
    start: usize,
}

impl<Source: Read> FrameReader<Source> {
    /// How many bytes are asked for at once.
    const CHUNK: usize = 1 << 16;

    fn new(input: Source) -> Self {
        FrameReader {
            input,
            buffer: Vec::new(),
            start: 0,
        }
    }

    /// The bytes from `start` on, at least so many, or all that are left of the input.
    fn fill(
        &mut self,
        wanted: usize,
        before_waiting: &mut impl FnMut() -> io::Result<()>,
    ) -> io::Result<&[u8]> {
        while self.buffer.len() - self.start < wanted {
            self.buffer.drain(..self.start);
            self.start = 0;
            before_waiting()?;
            // The length that a frame announces is not believed: the buffer grows with what comes.
            let held = self.buffer.len();
            self.buffer.resize(held + Self::CHUNK.max(held), 0);
            let count = loop {
                match self.input.read(&mut self.buffer[held..]) {
                    Err(error) if error.kind() == io::ErrorKind::Interrupted => continue,
                    result => break result?,
                }
            };
            self.buffer.truncate(held + count);
            if count == 0 {
                break;
            }
        }
        Ok(&self.buffer[self.start..])
    }

    fn next(
        &mut self,
        mut before_waiting: impl FnMut() -> io::Result<()>,
    ) -> io::Result<Input<'_>> {
        let front = self.fill(1, &mut before_waiting)?;
        let (kind, size_of_length) = match front.first() {
            None => return Ok(Input::End),
            Some(1) => (Kind::Source, 4),
            Some(2) => (Kind::Update, 4),
            Some(3) => (Kind::Packet, 2),
            Some(4) => {
                self.start += 1;
                return Ok(Input::Pause);
            }
            Some(_) => return Ok(Input::Unknown),
        };
        let front = self.fill(1 + size_of_length, &mut before_waiting)?;
        let Some(length) = front.get(1..1 + size_of_length) else {
            return Ok(Input::Cut(kind));
        };
        let length = length
            .iter()
            .fold(0, |sum, &byte| sum << 8 | usize::from(byte));
        let begin = 1 + size_of_length;
        let end = begin + length;
        if self.fill(end, &mut before_waiting)?.len() < end {
            return Ok(Input::Cut(kind));
        }
        let bytes = &self.buffer[self.start + begin..self.start + end];
        self.start += end;
        Ok(match kind {
            Kind::Source => Input::Source(bytes),
            Kind::Update => Input::Update(bytes),
            Kind::Packet => Input::Packet(bytes),
        })
    }
}

#[cfg(test)]
mod tests {
    use super::*;

    const SOURCE: &[u8] =
        b"header h{f 8;g 8;}first h;table t{look f;sets out,g;lines 2;}do{apply t;}";

    const UPDATE: [u8; 40] = [
        1, 0, 0, 2, 0, 0, 0, 0x10, 0, 0, 0, 0xf0, 2, 1, 0, 0, 0, 0, 0, 1, 2, 2, 1, 1, 0, 0, 0, 0,
        0, 0, 0, 0, 1, 1, 0, 0, 0, 0, 0, 2,
    ];

    const TAKEN: [u8; 6] = [17, 0, 0, 0, 0, 0];

    fn framed(kind: u8, bytes: &[u8]) -> Vec<u8> {
        let length = (bytes.len() as u32).to_be_bytes();
        let length = if kind == 3 { &length[2..] } else { &length[..] };
        [&[kind], length, bytes].concat()
    }

    fn output(input: &[u8], timing: Timing) -> Vec<u8> {
        let mut output = Vec::new();
        serve(input, &mut output, timing).unwrap();
        output
    }

    fn line(input: &[u8]) -> Vec<u8> {
        output(input, Timing::TwelveStepsLater)
    }

    /// The input of the reference's example: a source, an update, three packets, eleven pauses.
    fn example() -> Vec<u8> {
        let mut input = framed(1, SOURCE);
        input.extend(framed(2, &UPDATE));
        input.extend(framed(3, &[0x1f, 5, 0xaa]));
        input.extend(framed(3, &[0x20, 5]));
        input.extend(framed(3, &[7]));
        input.extend([4; 11]);
        input
    }

    const FIRST: [u8; 7] = [16, 1, 0, 3, 0x1f, 0x24, 0xaa];
    const SECOND: [u8; 6] = [16, 2, 0, 2, 0x20, 5];

    #[test]
    fn example_of_the_reference() {
        let due = [&TAKEN[..], &TAKEN, &[18, 6], &FIRST, &SECOND].concat();
        assert_eq!(line(&example()), due);
        let at_once = [&TAKEN[..], &TAKEN, &FIRST, &SECOND, &[18, 6]].concat();
        assert_eq!(output(&example(), Timing::AtOnce), at_once);
        // Without the last pause, the second packet is still in a slot.
        let short = &example()[..example().len() - 1];
        assert_eq!(line(short), due[..due.len() - SECOND.len()]);
        assert_eq!(output(short, Timing::AtOnce), at_once);
    }

    #[test]
    fn comparisons_of_the_reference() {
        let due = line(&example());
        let compared = |output: &[u8]| compare(&example()[..], output).unwrap().to_string();
        assert_eq!(compared(&due), "as meant");
        assert_eq!(compared(&due[..due.len() - SECOND.len()]), "packet 1");
        assert_eq!(compared(&[&due[..12], &due[14..]].concat()), "packet 2");
        let mut other = due.clone();
        other[7] = 9;
        assert_eq!(compared(&other), "answer 1");
        assert_eq!(compared(&[&due[..], &[0]].concat()), "extra");
        assert_eq!(compared(&[]), "answer 0");
        assert_eq!(compared(&due[..due.len() - 1]), "packet 1");
        // An unknown kind counts as the packet that would be next.
        let input = [&example()[..], &[9]].concat();
        assert_eq!(
            compare(&input[..], &due).unwrap(),
            Comparison::Differs(Owner::Packet(3))
        );
        let input = [&example()[..], &[2, 0]].concat();
        assert_eq!(
            compare(&input[..], &due).unwrap(),
            Comparison::Differs(Owner::Answer(2))
        );
    }

    #[test]
    fn a_packet_that_was_dropped_as_meant() {
        let mut input = framed(1, b"header h{f 8;}first h;do{if f==0{}else{set out=f;}}");
        input.extend(framed(3, &[0]));
        input.extend(framed(3, &[1]));
        input.extend([4; 12]);
        assert_eq!(line(&input), [&TAKEN[..], &[16, 1, 0, 1, 1]].concat());
        let given = [&TAKEN[..], &[16, 9, 0, 1, 0], &[16, 1, 0, 1, 1]].concat();
        assert_eq!(
            compare(&input[..], &given).unwrap(),
            Comparison::Differs(Owner::Packet(1))
        );
    }

    #[test]
    fn answers_that_do_not_depend_on_content() {
        let cut_source = [1, 0, 0, 0, 5, b'd', b'o'];
        assert_eq!(line(&[]), []);
        assert_eq!(line(&[5, 4, 4]), [18, 1]);
        assert_eq!(line(&[0]), [18, 1]);
        assert_eq!(line(&[3, 0]), [18, 1]);
        assert_eq!(line(&[3]), [18, 1]);
        assert_eq!(line(&[2, 0, 0]), [17, 1, 0, 0, 0, 0]);
        assert_eq!(line(&cut_source), [17, 1, 0, 0, 0, 0]);
        assert_eq!(line(&[2, 0, 0, 0, 0]), [17, 13, 0, 0, 0, 0]);
        assert_eq!(line(&[3, 0, 1, 7]), [18, 13]);
        assert_eq!(line(&[4, 4, 3, 0, 0, 9, 4]), [18, 13, 18, 1]);
        let taken = framed(1, SOURCE);
        let second = [&taken[..], &[1, 0, 0, 0, 0]].concat();
        assert_eq!(line(&second), [&TAKEN[..], &[17, 13, 0, 0, 0, 0]].concat());
        let second = [&taken[..], &cut_source].concat();
        assert_eq!(line(&second), [&TAKEN[..], &[17, 1, 0, 0, 0, 0]].concat());
        // Behind a refused source another may come.
        let refused = [&framed(1, b"do { } do")[..], &taken].concat();
        assert_eq!(line(&refused), [&[17, 2, 0, 0, 0, 7], &TAKEN[..]].concat());
    }

    #[test]
    fn a_refusal_comes_before_what_leaves() {
        let mut input = framed(1, b"header h{f 8;}first h;do{set out=1;}");
        input.extend(framed(3, &[7]));
        input.extend([4; 11]);
        input.extend(framed(3, &[]));
        input.extend(framed(3, &[8; 2049]));
        assert_eq!(
            line(&input),
            [&TAKEN[..], &[18, 6, 16, 1, 0, 1, 7, 18, 6]].concat()
        );
    }

    /// The example of updates: packets in each step from 5 on, updates behind steps 5, 8 and 17.
    #[test]
    fn updates_under_way() {
        let source = b"header h{f 8;}first h;table t{look;sets out;lines 1;}do{apply t;}";
        let update = |port: u8| framed(2, &[1, 0, 0, 1, 1, 1, 0, 0, 0, 0, 0, port]);
        let mut input = framed(1, source);
        let mut due = TAKEN.to_vec();
        input.extend([4; 5]);
        let mut port = 0;
        let mut ports = Vec::new();
        for step in 5..=40 {
            input.extend(framed(3, &[step]));
            ports.push(port);
            if step >= 17 {
                let came = step - 12;
                let port = ports[usize::from(came) - 5];
                if port != 0 {
                    due.extend([16, port, 0, 1, came]);
                }
            }
            if let 5 | 8 | 16 | 17 = step {
                input.extend(update(step));
                let taken = step == 5 || step == 17;
                due.extend([17, if taken { 0 } else { 12 }, 0, 0, 0, 0]);
                if taken {
                    port = step;
                }
            }
        }
        assert_eq!(line(&input), due);
    }

    #[test]
    fn two_updates_without_a_step_between() {
        let empty = framed(2, &[0]);
        let refused = [17, 12, 0, 0, 0, 0];
        let both = [&framed(1, SOURCE)[..], &empty, &empty].concat();
        assert_eq!(line(&both), [TAKEN; 3].concat());
        let one = [&framed(1, SOURCE)[..], &framed(3, &[0, 0]), &empty, &empty].concat();
        assert_eq!(line(&one), [TAKEN, TAKEN, refused].concat());
        // A fault of its bytes goes before 12.
        let faulty = [&one[..], &framed(2, &[])].concat();
        assert_eq!(
            line(&faulty),
            [TAKEN, TAKEN, refused, [17, 1, 0, 0, 0, 0]].concat()
        );
        // Twelve steps later the packet has left, and `means` answers alike.
        for pauses in [11, 12] {
            let later = [&one[..], &vec![4; pauses], &empty].concat();
            let last = if pauses == 12 { TAKEN } else { refused };
            let due = [TAKEN, TAKEN, refused, last].concat();
            assert_eq!(line(&later), due);
            assert_eq!(output(&later, Timing::AtOnce), due);
        }
    }

    #[test]
    fn example_of_the_overview() {
        let source = b"header link { to 16; kind 8; } header hop { left 8; from 16; }
            first link; after link by kind { 1 : hop; }
            table ports { look to; sets out; lines 64; }
            do { apply ports; if kind == 1 { if left == 0 { set out = 0; } else { add left = 0xff; } } }";
        let update = [
            1, 0, 0, 1, 0, 0, 0x0a, 1, 0, 0, 0xff, 0xff, 1, 1, 0, 0, 0, 0, 0, 5,
        ];
        let mut input = framed(1, source);
        input.extend(framed(2, &update));
        input.extend(framed(3, &[0x0a, 1, 1, 7, 0, 0x2a, 0xde, 0xad]));
        input.extend([4; 12]);
        let packet = [16, 5, 0, 8, 0x0a, 1, 1, 6, 0, 0x2a, 0xde, 0xad];
        assert_eq!(line(&input), [&TAKEN[..], &TAKEN, &packet].concat());
    }

    /// Gives one byte at a time, to show that frames are put together from pieces.
    struct Slow<'bytes>(&'bytes [u8]);

    impl Read for Slow<'_> {
        fn read(&mut self, buffer: &mut [u8]) -> io::Result<usize> {
            let count = 1.min(self.0.len());
            buffer[..count].copy_from_slice(&self.0[..count]);
            self.0 = &self.0[count..];
            Ok(count)
        }
    }

    #[test]
    fn a_stream_in_pieces() {
        let mut output = Vec::new();
        serve(Slow(&example()), &mut output, Timing::TwelveStepsLater).unwrap();
        assert_eq!(output, line(&example()));
    }
}
