//! The picture of a shifted frame, scan line by scan line: which rows stand still, which glide, and the cells that each line
//! of the screen shows. Rows are laid out one scan line after the other, and looked up there.

use crate::rules::{self, Refusal, Settings, State, CELLS};
use crate::trail::PLACES;

/// A cell that shows nothing.
pub const NOTHING: u32 = 1 << 23;

/// The absolute cursor, which stays where it is.
const CURSOR: u32 = 1 << 22;

pub type Cells = [u32; CELLS];

/// A row of the picture.
pub struct PictureRow {
    pub attributes: u32,
    /// Its scan lines, all of them.
    pub height: u32,
    pub cells: Cells,
    /// The first and last column of the window on it.
    pub columns: Option<(u32, u32)>,
    /// The cells without the window, where there is one and they can be drawn.
    pub behind: Option<Cells>,
}

/// Where a row comes from.
#[derive(Clone, Copy, PartialEq, Eq, Debug)]
pub enum Kind {
    Frame,
    Below,
    Above,
}

/// A scan line of a row.
#[derive(Clone, Copy, PartialEq, Eq, Debug)]
pub struct Scan {
    pub kind: Kind,
    pub index: usize,
    pub line: u32,
}

/// A frame with the rows that come in.
pub struct Picture {
    pub shift: i32,
    /// Lines for rows.
    pub lines: u32,
    pub rows: Vec<PictureRow>,
    pub below: Vec<PictureRow>,
    pub above: Vec<PictureRow>,
    pub refusal: Option<Refusal>,
    /// The latch that the frame hands on.
    pub latch: u16,
}

/// What a console draws a picture from.
pub struct Scene<'a> {
    pub settings: &'a Settings,
    pub memory: &'a [u16],
    pub soft: [u16; 2],
    pub latch: u16,
    pub shift: i32,
}

/// The next row of a state, which goes on with it.
fn drawn(settings: &Settings, memory: &[u16], state: &mut State) -> Result<PictureRow, Refusal> {
    let mut list = vec![0; PLACES];
    let mut bare = *state;
    let mut cells = [0; CELLS];
    let row = rules::row(settings, memory, state, &mut cells, &mut list)?;
    let over = state.fields.window.as_ref();
    let over = over.filter(|w| (w.first_row..=w.last_row).contains(&row.row));
    let columns = over.map(|w| (w.first_column, w.last_column));
    let mut behind = None;
    if columns.is_some() {
        bare.fields.window = None;
        let mut under = [0; CELLS];
        let made = rules::row(settings, memory, &mut bare, &mut under, &mut list);
        behind = made.is_ok().then_some(under);
    }
    Ok(PictureRow {
        attributes: row.attributes,
        height: state.fields.scan_lines,
        cells,
        columns,
        behind,
    })
}

/// Rows until no line is left or one is refused.
fn rows(
    settings: &Settings,
    memory: &[u16],
    state: &mut State,
) -> (Vec<PictureRow>, Option<Refusal>) {
    let mut rows = Vec::new();
    while state.fields.lines_left > 0 {
        match drawn(settings, memory, state) {
            Ok(row) => rows.push(row),
            Err(refusal) => return (rows, Some(refusal)),
        }
    }
    (rows, None)
}

impl Picture {
    pub fn new(scene: &Scene) -> Picture {
        let Scene {
            settings,
            memory,
            soft,
            latch,
            shift,
        } = *scene;
        let lines = rules::sheet(settings).map_or(0, |sheet| sheet.lines);
        let mut picture = Picture {
            shift,
            lines,
            rows: Vec::new(),
            below: Vec::new(),
            above: Vec::new(),
            refusal: None,
            latch,
        };
        if shift < 0 {
            let top = Settings {
                top: soft,
                ..*settings
            };
            if let Ok(mut start) = rules::start(&top, memory, latch, &mut vec![0; PLACES]) {
                picture
                    .above
                    .extend(drawn(&top, memory, &mut start.state).ok());
            }
        }
        let mut state = match rules::start(settings, memory, latch, &mut vec![0; PLACES]) {
            Ok(start) => start.state,
            Err(refusal) => {
                picture.refusal = Some(refusal);
                return picture;
            }
        };
        (picture.rows, picture.refusal) = rows(settings, memory, &mut state);
        if picture.refusal.is_none() {
            picture.latch = state.latch;
            if shift > 0 {
                state.fields.lines_left = shift as u32;
                (picture.below, _) = rows(settings, memory, &mut state);
            }
        }
        picture
    }

    /// The rows of a kind.
    pub fn of(&self, kind: Kind) -> &[PictureRow] {
        match kind {
            Kind::Frame => &self.rows,
            Kind::Below => &self.below,
            Kind::Above => &self.above,
        }
    }

    pub fn row(&self, scan: &Scan) -> &PictureRow {
        &self.of(scan.kind)[scan.index]
    }

    fn heights(&self, kind: Kind) -> Vec<u32> {
        self.of(kind).iter().map(|row| row.height).collect()
    }

    /// The lines of the screen: the scan line that stands still on each, and the one that glides there.
    pub fn screen(&self) -> Vec<(Option<Scan>, Option<Scan>)> {
        let [above, rows, below] =
            [Kind::Above, Kind::Frame, Kind::Below].map(|kind| self.heights(kind));
        let strips = Strips::new(self.shift, &above, &rows, &below);
        (0..self.lines as usize).map(|y| strips.line(y)).collect()
    }

    /// The cells of a line.
    pub fn shown(&self, still: Option<Scan>, gliding: Option<Scan>) -> Cells {
        let row = |scan: &Option<Scan>| scan.as_ref().map(|scan| self.row(scan));
        let (still, gliding) = (row(&still), row(&gliding));
        let behind = gliding.and_then(|row| row.behind.as_ref());
        shown(
            &Layer::of(still),
            &Layer::of(gliding),
            behind.map_or(&[], |cells| cells),
        )
    }
}

/// Rows laid out scan line after scan line: those that stand still, and all that can glide onto the screen.
pub struct Strips {
    still: Vec<Scan>,
    gliding: Vec<Scan>,
    /// Which of the gliding ones is on line 0.
    first: i64,
}

impl Strips {
    pub fn new(shift: i32, above: &[u32], rows: &[u32], below: &[u32]) -> Strips {
        let scans = |kind, heights: &[u32]| -> Vec<Scan> {
            let rows = heights.iter().enumerate();
            rows.flat_map(|(index, &height)| {
                (0..height).map(move |line| Scan { kind, index, line })
            })
            .collect()
        };
        let still = scans(Kind::Frame, rows);
        let mut gliding = scans(Kind::Above, above);
        let first = gliding.len() as i64 + i64::from(shift);
        gliding.extend(&still);
        gliding.extend(scans(Kind::Below, below));
        Strips {
            still,
            gliding,
            first,
        }
    }

    /// A line of the screen.
    pub fn line(&self, y: usize) -> (Option<Scan>, Option<Scan>) {
        let still = self.still.get(y).copied();
        let at = usize::try_from(self.first + y as i64).ok();
        let gliding = at.and_then(|at| self.gliding.get(at)).copied();
        (still, still.and(gliding))
    }
}

/// A row that a line shows: its cells, none where there is no row, and the first and last column of its window.
#[derive(Clone, Copy, Debug)]
pub struct Layer<'a> {
    pub cells: &'a [u32],
    pub columns: Option<(u32, u32)>,
}

impl Layer<'_> {
    fn of(row: Option<&PictureRow>) -> Layer<'_> {
        Layer {
            cells: row.map_or(&[], |row| &row.cells),
            columns: row.and_then(|row| row.columns),
        }
    }

    fn covers(&self, x: usize) -> bool {
        self.columns
            .is_some_and(|(first, last)| (first..=last).contains(&(x as u32)))
    }
}

/// The cells of a line, from the row that stands still, the one that glides, and what is behind the latter's window.
pub fn shown(still: &Layer, gliding: &Layer, behind: &[u32]) -> Cells {
    let cell = |cells: &[u32], x: usize| cells.get(x).copied().unwrap_or(NOTHING);
    if still.cells.is_empty() {
        return [NOTHING; CELLS];
    }
    std::array::from_fn(|x| {
        let own = still.cells[x];
        if still.covers(x) {
            return own;
        }
        let glides = match gliding.covers(x) && !gliding.cells.is_empty() {
            true => cell(behind, x),
            false => cell(gliding.cells, x),
        };
        glides & !CURSOR | own & CURSOR
    })
}
