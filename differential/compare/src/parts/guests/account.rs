//! The plain account of a list: document 01's numbers, who wrote each store byte last, who read and wrote each texture.
use super::{on_target, Draw, List, Op, Reached, Rect, Turn, GUESTS};
use oracle::consts::*;
use ::port::target::Scissor;

const LEVELS: usize = 11;

/// The guest of a byte that nobody wrote.
const NOBODY: u8 = u8::MAX;

#[derive(Clone, Copy, Debug, PartialEq)]
pub struct Level {
    pub kept: bool,
    pub width: u32,
    pub height: u32,
    pub place: u64,
}

impl Level {
    pub const ABSENT: Level = Level { kept: false, width: 0, height: 0, place: 0 };

    pub fn len(&self) -> u128 {
        4 * u128::from(self.width) * u128::from(self.height)
    }

    fn end(&self) -> u128 {
        u128::from(self.place) + self.len()
    }

    pub fn complete(&self) -> bool {
        self.kept && self.width > 0 && self.height > 0
    }

    fn overlaps(&self, other: &Level) -> bool {
        self.complete() && other.complete() && u128::from(self.place) < other.end() && u128::from(other.place) < self.end()
    }

    /// Its bytes in the store.
    fn bytes(&self) -> std::ops::Range<usize> {
        let at = self.place as usize;
        if self.complete() { at..at + self.len() as usize } else { 0..0 }
    }
}

/// A texture record.
#[derive(Clone, Debug)]
pub struct Book {
    pub levels: [Level; LEVELS],
    pub top: u64,
    /// Minifying and magnifying filter, wraps along s and t.
    pub codes: [u32; 4],
}

impl Book {
    pub fn new() -> Self {
        let mut levels = [Level::ABSENT; LEVELS];
        levels[0].kept = true;
        Self { levels, top: 0, codes: [GL_NEAREST_MIPMAP_LINEAR, GL_LINEAR, GL_REPEAT, GL_REPEAT] }
    }

    pub fn bytes(&self) -> Vec<u8> {
        let mut out = Vec::with_capacity(244);
        for level in &self.levels {
            for word in [u32::from(level.kept), level.width, level.height] {
                out.extend(word.to_le_bytes());
            }
            out.extend(level.place.to_le_bytes());
        }
        out.extend(self.top.to_le_bytes());
        for code in self.codes {
            out.extend(code.to_le_bytes());
        }
        out
    }

    /// The top level that the chain gives.
    pub fn chain_top(&self) -> u64 {
        if !self.levels[0].complete() {
            return 0;
        }
        let mut k = 0;
        while (self.levels[k].width, self.levels[k].height) != (1, 1) && k + 1 < LEVELS {
            let (last, next) = (self.levels[k], self.levels[k + 1]);
            if !next.complete() || (next.width, next.height) != ((last.width / 2).max(1), (last.height / 2).max(1)) {
                break;
            }
            k += 1;
        }
        k as u64
    }

    /// The rule of 8.
    pub fn valid(&self, store: usize) -> bool {
        let kept: Vec<&Level> = self.levels.iter().filter(|level| level.kept).collect();
        kept.iter().all(|level| level.end() <= store as u128 && level.width <= 1024 && level.height <= 1024)
            && (0..kept.len()).all(|i| (0..i).all(|j| !kept[i].overlaps(kept[j])))
            && self.top == self.chain_top()
    }

    /// The record once a level is defined.
    fn with(&self, k: usize, level: Level) -> Self {
        let mut next = self.clone();
        if k > 0 {
            next.levels[k + 1..].fill(Level::ABSENT);
        }
        next.levels[k] = level;
        next.top = next.chain_top();
        next
    }
}

/// The rule of 4.
fn bounded(x: f32) -> bool {
    x.abs() <= 1048576.0
}

/// The rule of 2.
fn scissor_passes(scissor: Scissor) -> bool {
    scissor.map_or(true, |(x, y, w, h)| [x, y, w, h].iter().all(|n| (-8192..=8192).contains(n)))
}

pub fn set_known(pname: u32, value: u32) -> bool {
    match pname {
        GL_TEXTURE_MIN_FILTER => [GL_NEAREST, GL_LINEAR].contains(&value) || (GL_NEAREST_MIPMAP_NEAREST..=GL_LINEAR_MIPMAP_LINEAR).contains(&value),
        GL_TEXTURE_MAG_FILTER => [GL_NEAREST, GL_LINEAR].contains(&value),
        GL_TEXTURE_WRAP_S | GL_TEXTURE_WRAP_T => [GL_REPEAT, GL_CLAMP_TO_EDGE].contains(&value),
        0x813A..=0x813D | 0x8501 => true,
        _ => false,
    }
}

pub struct Account {
    pub width: u32,
    pub height: u32,
    /// 1 lets the target pass.
    pub fits: bool,
    pub store: usize,
    pub windows: Vec<Rect>,
    pub books: Vec<Book>,
    /// The guest that wrote each store byte last.
    last: Vec<u8>,
    /// The bytes that a guest wrote over another's.
    handed: Vec<bool>,
    /// The textures that were defined and then made new, and not defined since.
    pub renewed: Vec<bool>,
    /// The guests that read and that wrote each texture, as bits.
    read: Vec<u64>,
    wrote: Vec<u64>,
    boxes_held: bool,
    bytes_held: bool,
    pub reached: Reached,
}

impl Account {
    pub fn new(list: &List) -> Self {
        let pixels = u64::from(list.width) * u64::from(list.height);
        let lengths = list.colors as u64 == pixels.saturating_mul(4) && list.depths as u64 == pixels;
        let mut account = Self {
            width: list.width,
            height: list.height,
            fits: list.width <= 4096 && list.height <= 4096 && lengths,
            store: list.store,
            windows: list.windows.clone(),
            books: list.books.clone(),
            last: vec![NOBODY; list.store],
            handed: vec![false; list.store],
            renewed: vec![false; list.books.len()],
            read: vec![0; list.books.len()],
            wrote: vec![0; list.books.len()],
            boxes_held: true,
            bytes_held: true,
            reached: Reached::new(),
        };
        for &(x, y, w, h) in &list.windows {
            match on_target((x, y, w, h), list.width, list.height) {
                None => account.tell("empty windows", 1),
                Some([left, right, low, high]) => {
                    let past = i64::from(w) > right - left || i64::from(h) > high - low;
                    account.tell("windows past the target", u64::from(past));
                }
            }
        }
        account
    }

    pub fn tell(&mut self, name: &str, n: u64) {
        if n > 0 {
            *self.reached.entry(name.to_string()).or_insert(0) += n;
        }
    }

    pub fn define_number(&self, texture: usize, level: u32, width: u32, height: u32, place: usize, bytes: usize) -> u32 {
        let book = &self.books[texture];
        if width > 1024 || height > 1024 || level > 10 {
            return 9;
        }
        if !book.valid(self.store) {
            return 8;
        }
        let new = Level { kept: true, width, height, place: place as u64 };
        if bytes as u128 != new.len() {
            return 11;
        }
        let stays = |k: usize| k != level as usize && (level == 0 || k < level as usize);
        if new.end() > self.store as u128 || (0..LEVELS).any(|k| stays(k) && book.levels[k].overlaps(&new)) {
            return 10;
        }
        0
    }

    fn patch_number(&self, texture: usize, level: u32, [x, y, width, height]: [u32; 4], bytes: usize) -> u32 {
        let book = &self.books[texture];
        if !book.valid(self.store) {
            return 8;
        }
        let Some(of) = book.levels.get(level as usize).filter(|of| of.kept) else { return 12 };
        if u64::from(x) + u64::from(width) > u64::from(of.width) || u64::from(y) + u64::from(height) > u64::from(of.height) {
            return 13;
        }
        if (bytes as u128) < 4 * u128::from(width) * u128::from(height) { 11 } else { 0 }
    }

    fn draw_number(&self, draw: &Draw) -> u32 {
        let s = &draw.settings;
        let (x, y, w, h) = s.viewport;
        let mut floats = vec![s.depth_range.0, s.depth_range.1, s.alpha_ref, s.fog_start, s.fog_end, s.fog_density];
        floats.extend(s.fog_color);
        if !self.fits {
            return 1;
        }
        if !scissor_passes(s.scissor()) {
            return 2;
        }
        if ![x, y].iter().all(|n| (-8192..=8192).contains(n)) || w > 4096 || h > 4096 {
            return 3;
        }
        if !floats.into_iter().all(bounded) {
            return 4;
        }
        if s.fog && s.fog_mode != 0x2601 {
            return 7;
        }
        if draw.stages.len() > 4 || draw.stages.iter().any(|stage| stage.unit > 3 || !stage.env_color.into_iter().all(bounded)) {
            return 6;
        }
        if named(draw).iter().any(|&name| !self.books[name].valid(self.store)) {
            return 8;
        }
        if draw.corners.iter().flatten().all(|&x| bounded(x)) { 0 } else { 5 }
    }

    fn number(&self, op: &Op) -> u32 {
        match op {
            Op::ClearColor { .. } | Op::ClearDepth { .. } if !self.fits => 1,
            Op::ClearColor { scissor, .. } | Op::ClearDepth { scissor, .. } if !scissor_passes(*scissor) => 2,
            Op::ClearColor { .. } => 0,
            Op::ClearDepth { value, .. } => if bounded(*value) { 0 } else { 4 },
            Op::Draw(draw) => self.draw_number(draw),
            Op::Define { texture, level, width, height, place, image } => {
                self.define_number(*texture, *level, *width, *height, *place, image.len())
            }
            Op::Patch { texture, level, rect, image } => self.patch_number(*texture, *level, *rect, image.len()),
            Op::Set { pname, value, .. } => if set_known(*pname, *value) { 0 } else { 16 },
            Op::New { .. } => 0,
        }
    }

    /// Every byte of the texture's levels was last written by the guest, or by nobody.
    pub fn may_read(&self, guest: usize, texture: usize) -> bool {
        self.books[texture].levels.iter().all(|level| self.may_read_level(guest, level))
    }

    pub fn may_read_level(&self, guest: usize, level: &Level) -> bool {
        let own = |bytes: &[u8]| bytes.iter().all(|&g| g == NOBODY || usize::from(g) == guest);
        !level.kept || self.last.get(level.bytes()).map_or(true, own)
    }

    fn write(&mut self, guest: usize, bytes: std::ops::Range<usize>) {
        let mut changed = 0;
        for b in bytes {
            if self.last[b] != NOBODY && usize::from(self.last[b]) != guest {
                self.handed[b] = true;
                changed += 1;
            }
            self.last[b] = guest as u8;
        }
        self.tell("store bytes that changed hands", changed);
    }

    /// Enters a call; answers its number.
    pub fn step(&mut self, Turn { guest, op }: &Turn) -> u32 {
        let (guest, number) = (*guest, self.number(op));
        let bit = 1 << guest;
        match op {
            Op::ClearColor { scissor, .. } | Op::ClearDepth { scissor, .. } => self.boxed(guest, number, *scissor),
            Op::Draw(draw) => {
                self.boxed(guest, number, draw.settings.scissor());
                let names = named(draw);
                if [0, 5, 8].contains(&number) {
                    for &name in &names {
                        self.read[name] |= bit;
                    }
                }
                self.bytes_held &= number != 0 || names.iter().all(|&name| self.may_read(guest, name));
            }
            Op::Define { texture, level, width, height, place, .. } => {
                if number != 9 {
                    self.read[*texture] |= bit;
                }
                if number == 0 {
                    self.wrote[*texture] |= bit;
                    let level_after = Level { kept: true, width: *width, height: *height, place: *place as u64 };
                    self.books[*texture] = self.books[*texture].with(*level as usize, level_after);
                    self.renewed[*texture] = false;
                    self.write(guest, level_after.bytes());
                }
            }
            Op::Patch { texture, level, rect: [x, y, width, height], .. } => {
                self.read[*texture] |= bit;
                if number == 0 {
                    self.wrote[*texture] |= bit;
                    let of = self.books[*texture].levels[*level as usize];
                    for row in *y..*y + *height {
                        let from = of.place as usize + 4 * (row * of.width + x) as usize;
                        self.write(guest, from..from + 4 * *width as usize);
                    }
                }
            }
            Op::Set { texture, pname, value } => {
                if number == 0 {
                    self.wrote[*texture] |= bit;
                    let codes = &mut self.books[*texture].codes;
                    match *pname {
                        GL_TEXTURE_MIN_FILTER => codes[0] = *value,
                        GL_TEXTURE_MAG_FILTER => codes[1] = *value,
                        GL_TEXTURE_WRAP_S => codes[2] = *value,
                        GL_TEXTURE_WRAP_T => codes[3] = *value,
                        _ => {}
                    }
                }
            }
            // It reads nothing, not even the record that it writes over.
            Op::New { texture } => {
                self.wrote[*texture] |= bit;
                let defined = self.books[*texture].levels[0].complete();
                self.tell("new records of a defined texture", u64::from(defined));
                self.renewed[*texture] |= defined;
                self.books[*texture] = Book::new();
            }
        }
        number
    }

    fn boxed(&mut self, guest: usize, number: u32, scissor: Scissor) {
        if number != 0 {
            return;
        }
        let (width, height) = (self.width, self.height);
        let of = scissor.unwrap_or((0, 0, width as i32, height as i32));
        self.tell("draws and clears without a scissor", u64::from(scissor.is_none()));
        let Some([left, right, low, high]) = on_target(of, width, height) else { return };
        let past = i64::from(of.2) > right - left || i64::from(of.3) > high - low;
        self.tell("draws and clears of a box past the target", u64::from(past));
        let within = on_target(self.windows[guest], width, height).is_some_and(|w| w[0] <= left && right <= w[1] && w[2] <= low && high <= w[3]);
        self.boxes_held &= within;
    }

    /// Counts what a call reached, after its step.
    pub fn answered(&mut self, Turn { guest, op }: &Turn, (number, count): (u32, u32)) {
        let own = |name: usize| name / super::lists::OWN == *guest;
        let others = |name: usize| name < super::lists::OWN * GUESTS && !own(name);
        let (kind, names_others) = match op {
            Op::ClearColor { .. } => ("colour clears", false),
            Op::ClearDepth { .. } => ("depth clears", false),
            Op::Draw(draw) => ("draws", draw.units.iter().any(|&name| others(name))),
            Op::Define { texture, .. } => ("defines", others(*texture)),
            Op::Patch { texture, .. } => ("patches", others(*texture)),
            Op::Set { texture, .. } => ("settings", others(*texture)),
            Op::New { texture } => ("new records", others(*texture)),
        };
        self.tell(&format!("{kind} answered {number}"), 1);
        if number != 0 {
            self.tell("refused calls that name another's texture", u64::from(names_others));
        }
        let Op::Draw(draw) = op else { return };
        self.tell("draws", u64::from(self.fits));
        if number != 0 {
            return;
        }
        self.tell("draws with another's texture in a unit that no stage names", u64::from(names_others));
        if count == 0 {
            return;
        }
        self.tell("draws that write pixels", 1);
        self.tell("pixels written by draws", u64::from(count));
        // A pixel that is written was sampled from some level up to the top one.
        let textured: Vec<&Book> = named(draw).iter().map(|&name| &self.books[name]).filter(|book| book.levels[0].complete()).collect();
        let all = |book: &Book, is: &dyn Fn(usize) -> bool| book.levels[..=book.top as usize].iter().all(|level| level.bytes().all(is));
        let wrote = textured.iter().any(|book| all(book, &|b| usize::from(self.last[b]) == *guest));
        let handed = textured.iter().any(|book| all(book, &|b| usize::from(self.last[b]) == *guest && self.handed[b]));
        let some = !textured.is_empty();
        let renewed = named(draw).iter().any(|&name| self.renewed[name]);
        self.tell("draws that write pixels and read a texture", u64::from(some));
        self.tell("draws that write pixels and read bytes that their guest wrote", u64::from(wrote));
        self.tell("draws that write pixels and read bytes that were another's", u64::from(handed));
        self.tell("draws that write pixels and read a record made new", u64::from(renewed));
    }

    /// Whether each premise holds of the calls entered: windows, boxes, textures, bytes.
    pub fn held(&mut self) -> [bool; 4] {
        let cut: Vec<[i64; 4]> = self.windows.iter().filter_map(|&w| on_target(w, self.width, self.height)).collect();
        let apart = |a: &[i64; 4], b: &[i64; 4]| a[1] <= b[0] || b[1] <= a[0] || a[3] <= b[2] || b[3] <= a[2];
        let windows = (0..cut.len()).all(|i| (0..i).all(|j| apart(&cut[i], &cut[j])));
        let several = self.read.iter().zip(&self.wrote).filter(|(read, wrote)| **wrote == 0 && read.count_ones() > 1).count();
        self.tell("textures that nobody writes, read by several", several as u64);
        let textures = self.read.iter().zip(&self.wrote).all(|(read, wrote)| *wrote == 0 || (read | wrote).count_ones() == 1);
        [windows, self.boxes_held, textures, self.bytes_held]
    }
}

/// The textures of the units that the stages name.
pub fn named(draw: &Draw) -> Vec<usize> {
    let mut names: Vec<usize> = draw.stages.iter().filter(|stage| stage.unit < 4).map(|stage| draw.units[stage.unit as usize]).collect();
    names.sort_unstable();
    names.dedup();
    names
}
