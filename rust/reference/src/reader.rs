//! The image reader, and Run and Expand, which evaluate what it admits.
//!
//! No table or diagram is needed here, only widths: an image is first read
//! whole into cells, with every check, and only then evaluated. Older images,
//! whose cells are all signed, have a Run and an Expand of their own: the same
//! reader by the older width rule. An image can also be read for a given n.

use crate::ranges;
use crate::refusal::{
    require, Refusal, BYTES_AFTER, COMMAND, CUT_OFF, INPUT, OPERAND, TABLE_LENGTH,
};
use crate::widths::{cell_bits, rail_width, signed_width, weight_width};

/// The command that opens an image: n, offset.
pub(crate) const OPEN: u8 = 0x56;
/// The command that opens a cell: group, class counts, weight width.
pub(crate) const CELL: u8 = 0x43;
/// The command of one word: class, weight.
pub(crate) const WORD: u8 = 0x57;
/// The command that ends an image: total memory bits.
pub(crate) const END: u8 = 0x45;

const MOST_CLASSES: usize = 4_096;

/// What Run answers.
#[derive(Debug, Clone, PartialEq, Eq)]
pub struct Ran {
    pub value: i32,
    /// The words read to evaluate, one in each cell.
    pub words: usize,
}

/// An image that has passed every check.
pub(crate) struct Image {
    n: usize,
    offset: i32,
    cells: Vec<Cell>,
}

struct Cell {
    group: usize,
    incoming: usize,
    outgoing: usize,
    width: usize,
    words: Vec<Word>,
}

struct Word {
    class: usize,
    weight: i32,
}

/// The width that a cell with these weights must have in an image.
type WidthRule = fn(&[i32]) -> usize;

/// Run: the value of the image at X.
pub fn run(image: &[u8], x: usize) -> Result<Ran, Refusal> {
    Image::read(image, weight_width)?.run(x)
}

/// Expand: the values of the image at every X, in order.
pub fn expand(image: &[u8], table: &mut [i32]) -> Result<(), Refusal> {
    Image::read(image, weight_width)?.expand(table)
}

/// Run of an older image: the weights of every cell are signed.
pub fn run_older(image: &[u8], x: usize) -> Result<Ran, Refusal> {
    Image::read(image, signed_width)?.run(x)
}

/// Expand of an older image: the weights of every cell are signed.
pub fn expand_older(image: &[u8], table: &mut [i32]) -> Result<(), Refusal> {
    Image::read(image, signed_width)?.expand(table)
}

impl Image {
    fn read(bytes: &[u8], width_rule: WidthRule) -> Result<Image, Refusal> {
        let mut reader = Reader {
            left: bytes,
            width_rule,
        };
        let (n, offset) = reader.open()?;
        reader.cells_and_end(n, offset)
    }

    /// An image for a given n: any other breaks an operand rule of the opening
    /// command, so that no byte behind it counts.
    pub(crate) fn read_for(n: usize, bytes: &[u8]) -> Result<Image, Refusal> {
        let mut reader = Reader {
            left: bytes,
            width_rule: weight_width,
        };
        let (own, offset) = reader.open()?;
        require(own == n, OPERAND)?;
        reader.cells_and_end(n, offset)
    }

    pub(crate) fn run(&self, x: usize) -> Result<Ran, Refusal> {
        require(x < 1 << self.n, INPUT)?;
        Ok(self.evaluate(x))
    }

    fn expand(&self, table: &mut [i32]) -> Result<(), Refusal> {
        require(table.len() == 1 << self.n, TABLE_LENGTH)?;
        for (x, value) in table.iter_mut().enumerate() {
            *value = self.evaluate(x).value;
        }
        Ok(())
    }

    fn evaluate(&self, x: usize) -> Ran {
        let mut ran = Ran {
            value: self.offset,
            words: 0,
        };
        let mut class = 0;
        let mut variables = self.n;
        for cell in &self.cells {
            variables -= cell.group;
            let group_value = x >> variables & ((1 << cell.group) - 1);
            let word = &cell.words[(class << cell.group) + group_value];
            ran.value += word.weight;
            ran.words += 1;
            class = word.class;
        }
        ran
    }
}

impl Cell {
    fn bits(&self) -> usize {
        cell_bits(self.incoming, self.group, self.outgoing, self.width)
    }

    /// The operand rules of a cell's command; its width is judged later.
    fn admitted(&self, variables: usize, incoming: usize) -> bool {
        (1..=variables).contains(&self.group)
            && self.incoming == incoming
            && (1..=MOST_CLASSES).contains(&self.outgoing)
            && (self.group < variables || self.outgoing == 1)
            && ranges::address_width(rail_width(self.incoming) + self.group)
    }

    fn width_is_least(&self, width_rule: WidthRule) -> bool {
        let weights: Vec<i32> = self.words.iter().map(|word| word.weight).collect();
        self.width == width_rule(&weights)
    }
}

/// The bytes of an image that have not been read yet, and the rule for widths.
struct Reader<'a> {
    left: &'a [u8],
    width_rule: WidthRule,
}

impl Reader<'_> {
    /// The operands of the one command that may stand here.
    fn command<const OPERANDS: usize>(&mut self, due: u8) -> Result<[u8; OPERANDS], Refusal> {
        let (&byte, rest) = self.left.split_first().ok_or(CUT_OFF)?;
        require(byte == due, COMMAND)?;
        let operands = rest.get(..OPERANDS).ok_or(CUT_OFF)?;
        self.left = &rest[OPERANDS..];
        Ok(operands.try_into().expect("as many as were asked for"))
    }

    fn open(&mut self) -> Result<(usize, i32), Refusal> {
        let [n, a, b, c, d] = self.command(OPEN)?;
        let offset = i32::from_be_bytes([a, b, c, d]);
        require(ranges::size(n.into()) && ranges::value(offset), OPERAND)?;
        Ok((n.into(), offset))
    }

    /// The image of which n and the offset are read.
    fn cells_and_end(&mut self, n: usize, offset: i32) -> Result<Image, Refusal> {
        let mut cells = Vec::new();
        let mut variables = n;
        let mut incoming = 1;
        while variables > 0 {
            let cell = self.cell(variables, incoming)?;
            variables -= cell.group;
            incoming = cell.outgoing;
            cells.push(cell);
        }
        self.end(cells.iter().map(Cell::bits).sum())?;
        Ok(Image { n, offset, cells })
    }

    /// A cell with its words, while `variables` are left.
    fn cell(&mut self, variables: usize, incoming: usize) -> Result<Cell, Refusal> {
        let [group, a, b, c, d, width] = self.command(CELL)?;
        let mut cell = Cell {
            group: group.into(),
            incoming: u16::from_be_bytes([a, b]).into(),
            outgoing: u16::from_be_bytes([c, d]).into(),
            width: width.into(),
            words: Vec::new(),
        };
        require(cell.admitted(variables, incoming), OPERAND)?;
        for _ in 0..cell.incoming {
            for group_value in 0..1 << cell.group {
                cell.words.push(self.word(group_value, cell.outgoing)?);
            }
        }
        require(cell.width_is_least(self.width_rule), OPERAND)?;
        Ok(cell)
    }

    fn word(&mut self, group_value: usize, outgoing: usize) -> Result<Word, Refusal> {
        let [a, b, c, d, e, f] = self.command(WORD)?;
        let class = u16::from_be_bytes([a, b]).into();
        let weight = i32::from_be_bytes([c, d, e, f]);
        // Group value 0 is the block's own first value.
        let weight_admitted = ranges::weight(weight) && (group_value > 0 || weight == 0);
        require(class < outgoing && weight_admitted, OPERAND)?;
        Ok(Word { class, weight })
    }

    fn end(&mut self, bits: usize) -> Result<(), Refusal> {
        let total = u32::from_be_bytes(self.command(END)?);
        require(total as usize == bits, OPERAND)?;
        require(self.left.is_empty(), BYTES_AFTER)
    }
}
