//! The files of frames: classic pcap, and pcapng.

use crate::frame::Link;

/// The length of a classic file's header.
const FILE_HEADER: usize = 24;

/// The length of a classic record's header.
const RECORD_HEADER: usize = 16;

/// The most captured bytes that a frame may have.
const MOST_CAPTURED: usize = 262_144;

/// The longest block.
const MOST_BLOCK: usize = 16 << 20;

/// The least block: its type, and its length twice.
const LEAST_BLOCK: usize = 12;

/// The least block that begins a section.
const LEAST_SECTION: usize = 28;

/// The type of a block that begins a section; it is the same in both orders of bytes.
const SECTION: u32 = 0x0a0d_0d0a;

const INTERFACE: u32 = 1;
const SIMPLE_PACKET: u32 = 3;
const ENHANCED_PACKET: u32 = 6;

/// What ends a run before the end of its input. The number is the one that the next frame would have.
#[derive(Clone, Copy, PartialEq, Eq, Debug)]
pub enum PcapFault {
    NotPcap,
    /// A link type that isn't read.
    LinkType(u64),
    RecordSize(u64),
    CutShort(u64),
    Input,
}

impl PcapFault {
    /// Gives what is told.
    pub fn told(self) -> String {
        match self {
            PcapFault::NotPcap => "71 NotPcap".to_owned(),
            PcapFault::LinkType(frame) => format!("frame {frame}: 72 LinkType"),
            PcapFault::RecordSize(frame) => format!("frame {frame}: 73 RecordSize"),
            PcapFault::CutShort(frame) => format!("frame {frame}: 74 CutShort"),
            PcapFault::Input => "43 Input".to_owned(),
        }
    }

    /// Tells whether the whole frames before the fault make a run that is ended as any other.
    pub fn ends_run(self) -> bool {
        match self {
            PcapFault::NotPcap | PcapFault::Input => false,
            PcapFault::LinkType(frame) => frame > 1,
            PcapFault::RecordSize(_) | PcapFault::CutShort(_) => true,
        }
    }

    /// Gives the exit status.
    pub fn status(self) -> u8 {
        if matches!(self, PcapFault::NotPcap | PcapFault::LinkType(1)) { 2 } else { 1 }
    }
}

/// The order of the bytes of a file's numbers.
#[derive(Clone, Copy, PartialEq, Eq, Debug)]
enum Order {
    Little,
    Big,
}

impl Order {
    /// Gives the number at a place, which is there.
    #[inline(always)]
    fn number(self, bytes: &[u8], at: usize) -> u32 {
        let number = [bytes[at], bytes[at + 1], bytes[at + 2], bytes[at + 3]];
        match self {
            Order::Little => u32::from_le_bytes(number),
            Order::Big => u32::from_be_bytes(number),
        }
    }

    /// Gives the number of two bytes at a place.
    fn short(self, bytes: &[u8], at: usize) -> u32 {
        let number = [bytes[at], bytes[at + 1]];
        match self {
            Order::Little => u16::from_le_bytes(number).into(),
            Order::Big => u16::from_be_bytes(number).into(),
        }
    }
}

/// An interface of a pcapng section: its link layer, if it is read, and the most bytes of a frame, 0 for no limit.
#[derive(Clone, Copy, PartialEq, Eq, Debug)]
struct Interface {
    link: Option<Link>,
    most: usize,
}

/// How a file goes on, as its beginning says.
#[derive(Clone, PartialEq, Eq, Debug)]
enum Form {
    Classic(Order, Option<Link>),
    Blocks(Order, Vec<Interface>),
}

/// A frame as it was captured.
pub struct Captured<'a> {
    pub link: Link,
    pub bytes: &'a [u8],
    /// How many bytes it had when it was sent.
    pub original: usize,
}

/// What stands next in a file.
pub enum Next<'a> {
    /// A frame, and how long it is with what belongs to it.
    Frame(Captured<'a>, usize),
    /// Something else of a length.
    Other(usize),
    /// Not all of it is there.
    More,
}

/// Finds the frames of a file, whichever form it has.
#[derive(Default)]
pub struct FrameFinder {
    form: Option<Form>,
    /// How many frames were found.
    frames: u64,
}

impl FrameFinder {
    /// Tells how many frames were found.
    #[inline(always)]
    pub fn frames(&self) -> u64 {
        self.frames
    }

    /// Finds what stands at the front of the bytes.
    #[inline(always)]
    pub fn next<'a>(&mut self, bytes: &'a [u8]) -> Result<Next<'a>, PcapFault> {
        match &self.form {
            Some(Form::Classic(order, link)) => {
                let next = record(*order, *link, bytes).map_err(|why| why.at(self.frames + 1))?;
                self.frames += u64::from(matches!(next, Next::Frame(..)));
                Ok(next)
            }
            Some(Form::Blocks(..)) => self.block(bytes),
            None => self.beginning(bytes),
        }
    }

    /// Gives the fault of an input that ends with so many bytes that are no whole frame.
    pub fn end(&self, left: usize) -> Result<(), PcapFault> {
        match (&self.form, left) {
            (None, 0..4) => Err(PcapFault::NotPcap),
            (Some(_), 0) => Ok(()),
            _ => Err(PcapFault::CutShort(self.frames + 1)),
        }
    }

    /// Reads the beginning of a file.
    #[cold]
    fn beginning<'a>(&mut self, bytes: &'a [u8]) -> Result<Next<'a>, PcapFault> {
        let order = match bytes.first_chunk() {
            None => return Ok(Next::More),
            Some([0xd4, 0xc3, 0xb2, 0xa1] | [0x4d, 0x3c, 0xb2, 0xa1]) => Order::Little,
            Some([0xa1, 0xb2, 0xc3, 0xd4] | [0xa1, 0xb2, 0x3c, 0x4d]) => Order::Big,
            Some([0x0a, 0x0d, 0x0d, 0x0a]) => {
                if bytes.len() < LEAST_BLOCK {
                    return Ok(Next::More);
                }
                section_order(bytes).ok_or(PcapFault::NotPcap)?;
                let next = self.section(bytes)?.ok_or(PcapFault::NotPcap)?;
                return Ok(next);
            }
            Some(_) => return Err(PcapFault::NotPcap),
        };
        if bytes.len() < FILE_HEADER {
            return Ok(Next::More);
        }
        if (order.short(bytes, 4), order.short(bytes, 6)) != (2, 4) {
            return Err(PcapFault::NotPcap);
        }
        self.form = Some(Form::Classic(order, Link::of_number(order.number(bytes, 20) & 0xffff)));
        Ok(Next::Other(FILE_HEADER))
    }

    /// Reads the block that begins a section; none where it is of another version, or of unknown order.
    #[cold]
    fn section<'a>(&mut self, bytes: &'a [u8]) -> Result<Option<Next<'a>>, PcapFault> {
        let fault = PcapFault::RecordSize(self.frames + 1);
        if bytes.len() < LEAST_BLOCK {
            return Ok(Some(Next::More));
        }
        let Some(order) = section_order(bytes) else {
            return Ok(None);
        };
        let length = block_length(order, bytes).ok_or(fault)?;
        let Some(block) = bytes.get(..length) else {
            return Ok(Some(Next::More));
        };
        if length < LEAST_SECTION || order.number(block, length - 4) as usize != length {
            return Err(fault);
        }
        if order.short(block, 12) != 1 {
            return Ok(None);
        }
        self.form = Some(Form::Blocks(order, Vec::new()));
        Ok(Some(Next::Other(length)))
    }

    /// Reads a block of a pcapng file.
    fn block<'a>(&mut self, bytes: &'a [u8]) -> Result<Next<'a>, PcapFault> {
        let fault = PcapFault::RecordSize(self.frames + 1);
        let Some(Form::Blocks(order, interfaces)) = &mut self.form else {
            return Ok(Next::More);
        };
        let Some(head) = bytes.get(..8) else {
            return Ok(Next::More);
        };
        if order.number(head, 0) == SECTION {
            return self.section(bytes)?.ok_or(fault);
        }
        let length = block_length(*order, head).ok_or(fault)?;
        let Some(block) = bytes.get(..length) else {
            return Ok(Next::More);
        };
        if order.number(block, length - 4) as usize != length {
            return Err(fault);
        }
        let body = &block[8..length - 4];
        let (interface, bytes, original) = match order.number(head, 0) {
            INTERFACE => {
                interfaces.push(interface(*order, body).ok_or(fault)?);
                return Ok(Next::Other(length));
            }
            ENHANCED_PACKET => enhanced(*order, body, interfaces).ok_or(fault)?,
            SIMPLE_PACKET => simple(*order, body, interfaces).ok_or(fault)?,
            _ => return Ok(Next::Other(length)),
        };
        let link = interface.link.ok_or(PcapFault::LinkType(self.frames + 1))?;
        self.frames += 1;
        Ok(Next::Frame(Captured { link, bytes, original }, length))
    }
}

/// Gives the order of the bytes of a section, by the mark after its type and length.
fn section_order(bytes: &[u8]) -> Option<Order> {
    match bytes[8..12] {
        [0x4d, 0x3c, 0x2b, 0x1a] => Some(Order::Little),
        [0x1a, 0x2b, 0x3c, 0x4d] => Some(Order::Big),
        _ => None,
    }
}

/// Gives the length of a block, if it is a lawful one.
fn block_length(order: Order, head: &[u8]) -> Option<usize> {
    let length = order.number(head, 4) as usize;
    let is_lawful = (LEAST_BLOCK..=MOST_BLOCK).contains(&length) && length.is_multiple_of(4);
    is_lawful.then_some(length)
}

/// Why a classic record is no frame.
enum NoRecord {
    Size,
    Link,
}

impl NoRecord {
    #[cold]
    fn at(self, frame: u64) -> PcapFault {
        match self {
            NoRecord::Size => PcapFault::RecordSize(frame),
            NoRecord::Link => PcapFault::LinkType(frame),
        }
    }
}

/// Finds the classic record at the front of the bytes.
#[inline(always)]
fn record(order: Order, link: Option<Link>, bytes: &[u8]) -> Result<Next<'_>, NoRecord> {
    let Some(header) = bytes.get(..RECORD_HEADER) else {
        return Ok(Next::More);
    };
    let captured = order.number(header, 8) as usize;
    if captured > MOST_CAPTURED {
        return Err(NoRecord::Size);
    }
    let length = RECORD_HEADER + captured;
    let Some(bytes) = bytes.get(RECORD_HEADER..length) else {
        return Ok(Next::More);
    };
    let link = link.ok_or(NoRecord::Link)?;
    Ok(Next::Frame(Captured { link, bytes, original: order.number(header, 12) as usize }, length))
}

/// Reads the body of an interface's block.
fn interface(order: Order, body: &[u8]) -> Option<Interface> {
    let body = body.get(..8)?;
    Some(Interface { link: Link::of_number(order.short(body, 0)), most: order.number(body, 4) as usize })
}

/// An interface, the captured bytes of a frame, and how many it had.
type Packet<'a> = (Interface, &'a [u8], usize);

/// Reads the body of an enhanced packet's block.
fn enhanced<'a>(order: Order, body: &'a [u8], interfaces: &[Interface]) -> Option<Packet<'a>> {
    let (head, rest) = body.split_at_checked(20)?;
    let interface = *interfaces.get(order.number(head, 0) as usize)?;
    captured(rest, order.number(head, 12) as usize).map(|bytes| (interface, bytes, order.number(head, 16) as usize))
}

/// Reads the body of a simple packet's block, whose frame is cut to what the first interface takes.
fn simple<'a>(order: Order, body: &'a [u8], interfaces: &[Interface]) -> Option<Packet<'a>> {
    let (head, rest) = body.split_at_checked(4)?;
    let interface = *interfaces.first()?;
    let most = if interface.most == 0 { usize::MAX } else { interface.most };
    let original = order.number(head, 0) as usize;
    captured(rest, most.min(original)).map(|bytes| (interface, bytes, original))
}

/// Gives the captured bytes of a frame; none where there are too many, or fewer than are said.
fn captured(rest: &[u8], count: usize) -> Option<&[u8]> {
    rest.get(..count).filter(|bytes| bytes.len() <= MOST_CAPTURED)
}
