//! The presets: how many packets, of which market, over which feeds.

/// What is generated. Shares are of 10,000.
#[derive(Clone, Debug)]
pub struct Shape {
    /// How many packets the complete feed has; none where it goes on for as long as it is read.
    pub packets: Option<u32>,
    pub outrights: usize,
    pub spreads: usize,
    /// How many levels a direct side of an outright has at most, 1 to 10.
    pub outright_levels: usize,
    /// How many levels a direct side of a spread has at most, 1 to 10.
    pub spread_levels: usize,
    /// Only levels 5 to 10 are updated, and nothing is implied.
    pub is_deep: bool,
    /// The first two outrights are the legs of every spread, and once books are filled each event has entries of the
    /// first one.
    pub is_hub: bool,
    pub snapshots: Snapshots,
    pub gaps: Gaps,
    /// The share of packets lost on a feed, where the other one brings them.
    pub lost: u32,
    /// The share of packets that a feed brings twice.
    pub repeated: u32,
    /// The share of packets that a feed brings late.
    pub late: u32,
    /// The share of datagrams spoilt on one feed, where the other one is whole.
    pub spoilt: u32,
}

/// Which packets are lost on both feeds.
#[derive(Clone, Copy, Debug)]
pub enum Gaps {
    /// So many times packets in a row, evenly spread, with some play.
    Bursts(u32),
    /// The packet of this number.
    One(u32),
    /// The first packets in a row of each span of so many, but for the first span.
    Spans(u32),
}

/// What comes on the feed of snapshots.
#[derive(Clone, Copy, Debug)]
pub enum Snapshots {
    /// One every so many packets, of each security in turn; 0 for none.
    Every(u32),
    /// Two a packet, of each security in turn but for the last listed one, which is silent.
    ButTheLast,
    /// Two datagrams a packet, with one to three of the securities in turn, and after each of them one from long before.
    /// The security at the place `slow` is left out of the first `pause` packets of every other span.
    NewAndOld { slow: usize, span: u32, pause: u32 },
    /// One of each security, made `apart` packets after the one before, the first one of packet `first`. All of them
    /// come after packet `after`.
    AtOnce { first: u32, apart: u32, after: u32 },
}

/// How many packets in a row are lost at a time.
pub const BURST_LENGTH: u32 = 3;

/// How many places late a packet comes at most.
pub const MOST_PLACES_LATE: usize = 8;

pub const PRESETS: [&str; 10] =
    ["small", "day", "wide", "lossy", "deep", "endless", "one_leg", "silent", "snapshots", "spread_bases"];

impl Shape {
    /// Gives the shape of a preset.
    pub fn of_preset(name: &str) -> Option<Shape> {
        let day = Shape::day();
        let wide = Shape { packets: Some(100_000), outrights: 400, spreads: 112, ..day.clone() };
        Some(match name {
            "small" => Shape { packets: Some(2_000), ..day },
            "day" => day,
            "wide" => wide,
            "lossy" => Shape { packets: Some(50_000), snapshots: Snapshots::Every(8), gaps: Gaps::Bursts(20), ..day },
            "deep" => Shape { packets: Some(100_000), is_deep: true, ..day },
            "endless" => Shape { packets: None, snapshots: Snapshots::Every(64), ..day },
            "one_leg" => {
                Shape { packets: Some(25_500), outrights: 2, spreads: 510, spread_levels: 2, is_hub: true, ..day }
            }
            "silent" => wide.with_a_silent_one(),
            "snapshots" => wide.with_many_snapshots(),
            "spread_bases" => wide.with_spread_bases(),
            _ => return None,
        })
    }

    fn day() -> Shape {
        Shape {
            packets: Some(200_000),
            outrights: 40,
            spreads: 20,
            outright_levels: 10,
            spread_levels: 10,
            is_deep: false,
            is_hub: false,
            snapshots: Snapshots::Every(0),
            gaps: Gaps::Bursts(0),
            lost: 100,
            repeated: 50,
            late: 100,
            spoilt: 0,
        }
    }

    fn with_small_books(self) -> Shape {
        Shape { outright_levels: 3, spread_levels: 3, ..self }
    }

    /// A channel that a silent security holds from packet 1,000 on.
    fn with_a_silent_one(self) -> Shape {
        let (snapshots, gaps) = (Snapshots::ButTheLast, Gaps::One(1_000));
        Shape { packets: Some(30_000), snapshots, gaps, ..self.with_small_books() }
    }

    /// Six losses, after every other one of which a slow security is waited for; for a window of 512.
    fn with_many_snapshots(self) -> Shape {
        let span = 2_800;
        let snapshots = Snapshots::NewAndOld { slow: 300, span, pause: 900 };
        Shape { packets: Some(7 * span), snapshots, gaps: Gaps::Spans(span), ..self.with_small_books() }
    }

    /// A loss that is made up for once a window of 65,536 is full, by snapshots of very different ages.
    fn with_spread_bases(self) -> Shape {
        let lost = 1_000;
        let after = lost + 65_536;
        let snapshots = Snapshots::AtOnce { first: 2_000, apart: 100, after };
        Shape { packets: Some(after + 10_000), snapshots, gaps: Gaps::One(lost), ..self }
    }
}
