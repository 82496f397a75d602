// Draws a packed plan as an SVG picture: draw BLOCKS PL > SVG. BLOCKS is a .blocks text and PL the .pl text that `plot` wrote of it,
// so block 0 is the root, and blocks 2k + 1 and 2k + 2 are the left and right child of k.
use std::fmt::Write;

struct Block {
    name: String,
    width: u32,
    height: u32,
    x: u32,
    y: u32,
}

impl Block {
    fn right(&self) -> u32 {
        self.x + self.width
    }

    fn top(&self) -> u32 {
        self.y + self.height
    }

    fn meets(&self, other: &Block) -> bool {
        self.x.max(other.x) < self.right().min(other.right())
    }
}

/// Name, width and height of each block line.
fn read_blocks(text: &str) -> Vec<Block> {
    let mut blocks = Vec::new();
    for line in text.lines().filter(|line| line.contains("hardrectilinear")) {
        let name = line.split_whitespace().next().expect("a name").to_string();
        let numbers: Vec<u32> = line
            .split(['(', ')', ','])
            .filter_map(|word| word.trim().parse().ok())
            .collect();
        let [_, _, _, _, width, height, ..] = numbers[..] else {
            panic!("four vertices in: {line}");
        };
        blocks.push(Block { name, width, height, x: 0, y: 0 });
    }
    blocks
}

/// Puts each block where the .pl text has it.
fn read_places(text: &str, blocks: &mut [Block]) {
    for line in text.lines().skip(2) {
        let words: Vec<&str> = line.split_whitespace().collect();
        let [name, x, y] = words[..] else {
            panic!("a name, x and y in: {line}");
        };
        let block = blocks.iter_mut().find(|block| block.name == name).expect("a block of that name");
        block.x = x.parse().expect("x");
        block.y = y.parse().expect("y");
    }
}

/// The blocks met by going on from the root: each next one is `child` of the one before.
fn branch(count: usize, child: fn(usize) -> usize) -> Vec<usize> {
    std::iter::successors(Some(0), |k| Some(child(*k))).take_while(|k| *k < count).collect()
}

struct Picture {
    svg: String,
    scale: f64,
    floor: f64,
}

const LEFT: f64 = 30.0;

impl Picture {
    fn x(&self, x: u32) -> f64 {
        LEFT + f64::from(x) * self.scale
    }

    fn y(&self, y: u32) -> f64 {
        self.floor - f64::from(y) * self.scale
    }

    fn line(&mut self, from: (f64, f64), to: (f64, f64), style: &str) {
        let ((x1, y1), (x2, y2)) = (from, to);
        writeln!(self.svg, r#"<line x1="{x1:.1}" y1="{y1:.1}" x2="{x2:.1}" y2="{y2:.1}" {style}/>"#).unwrap();
    }

    fn text(&mut self, at: (f64, f64), size: f64, words: &str) {
        let (x, y) = at;
        writeln!(self.svg, r#"<text x="{x:.1}" y="{y:.1}" font-size="{size:.0}" text-anchor="middle">{words}</text>"#).unwrap();
    }

    fn block(&mut self, block: &Block, fill: &str) {
        let (x, y) = (self.x(block.x), self.y(block.top()));
        let (width, height) = (f64::from(block.width) * self.scale, f64::from(block.height) * self.scale);
        writeln!(
            self.svg,
            r##"<rect x="{x:.1}" y="{y:.1}" width="{width:.1}" height="{height:.1}" fill="{fill}" stroke="#444"/>"##
        )
        .unwrap();
        let size = (width.min(height) / 2.0).min(16.0);
        if size >= 5.0 {
            self.text((x + width / 2.0, y + height / 2.0 + size / 3.0), size, &block.name);
        }
    }

    /// An arrow from the block's bottom into each block that it stands on.
    fn stands(&mut self, block: &Block, on: &Block) {
        let from = block.x.max(on.x);
        let to = block.right().min(on.right());
        let x = (self.x(from) + self.x(to)) / 2.0;
        let y = self.y(block.y);
        let long = (self.scale / 3.0).clamp(4.0, 10.0);
        self.line((x, y - long), (x, y + long), r##"stroke="#222" stroke-width="1.5" marker-end="url(#arrow)""##);
    }

    /// The tops of the columns, from left to right.
    fn skyline(&mut self, blocks: &[Block]) {
        let mut edges: Vec<u32> = blocks.iter().flat_map(|block| [block.x, block.right()]).collect();
        edges.sort_unstable();
        edges.dedup();
        let mut points = String::new();
        for pair in edges.windows(2) {
            let over = blocks.iter().filter(|block| block.x <= pair[0] && pair[0] < block.right());
            let height = over.map(Block::top).max().unwrap_or(0);
            let y = self.y(height);
            write!(points, "{:.1},{y:.1} {:.1},{y:.1} ", self.x(pair[0]), self.x(pair[1])).unwrap();
        }
        writeln!(self.svg, r##"<polyline points="{points}" fill="none" stroke="#c22" stroke-width="3"/>"##).unwrap();
    }

    /// Each block's span, one below the other under the floor.
    fn spans(&mut self, blocks: &[Block]) {
        for (row, block) in blocks.iter().enumerate() {
            let y = self.floor + 34.0 + 14.0 * row as f64;
            let style = r##"stroke="#36c" stroke-width="2""##;
            self.line((self.x(block.x), y), (self.x(block.right()), y), style);
            self.line((self.x(block.x), y - 4.0), (self.x(block.x), y + 4.0), style);
            self.line((self.x(block.right()), y - 4.0), (self.x(block.right()), y + 4.0), style);
            self.text((LEFT / 2.0, y + 4.0), 11.0, &block.name);
        }
    }
}

fn fill(k: usize, leftmost: &[usize], rightmost: &[usize]) -> &'static str {
    match (leftmost.contains(&k), rightmost.contains(&k)) {
        (true, true) => "#cdebd0",
        (true, false) => "#cfe0f7",
        (false, true) => "#fbe7b9",
        (false, false) => "#f2f2f2",
    }
}

const ARROW: &str = r##"<defs><marker id="arrow" viewBox="0 0 6 6" refX="5" refY="3" markerWidth="5" markerHeight="5" orient="auto">
<path d="M0,0 L6,3 L0,6 z" fill="#222"/></marker></defs>
"##;

fn draw(blocks: &[Block]) -> String {
    let width = blocks.iter().map(Block::right).max().unwrap_or(1);
    let height = blocks.iter().map(Block::top).max().unwrap_or(1);
    let scale = (560.0 / f64::from(width)).min(640.0 / f64::from(height));
    let few = blocks.len() <= 15;
    let below = if few { 40.0 + 14.0 * blocks.len() as f64 } else { 30.0 };
    let floor = 20.0 + f64::from(height) * scale;
    let mut picture = Picture { svg: String::new(), scale, floor };
    let leftmost = branch(blocks.len(), |k| 2 * k + 1);
    let rightmost = branch(blocks.len(), |k| 2 * k + 2);
    for (k, block) in blocks.iter().enumerate() {
        picture.block(block, fill(k, &leftmost, &rightmost));
    }
    for block in blocks.iter().filter(|block| block.y > 0) {
        for on in blocks.iter().filter(|on| on.top() == block.y && on.meets(block)) {
            picture.stands(block, on);
        }
    }
    picture.skyline(blocks);
    let end = picture.x(width) + 15.0;
    picture.line((LEFT - 10.0, floor), (end, floor), r##"stroke="#000" stroke-width="2""##);
    let every = [1, 2, 5, 10, 20, 50, 100, 200, 500, 1000, 5000].into_iter().find(|step| width / step <= 12).unwrap_or(width);
    for x in (0..=width).step_by(every as usize) {
        let at = picture.x(x);
        picture.line((at, floor), (at, floor + 5.0), r##"stroke="#000""##);
        picture.text((at, floor + 17.0), 11.0, &x.to_string());
    }
    if few {
        picture.spans(blocks);
    }
    let (wide, high) = (f64::from(width) * scale + LEFT + 30.0, floor + below);
    format!(
        "<svg xmlns=\"http://www.w3.org/2000/svg\" width=\"{wide:.0}\" height=\"{high:.0}\" font-family=\"sans-serif\">\n\
         <rect width=\"100%\" height=\"100%\" fill=\"white\"/>\n{ARROW}{}</svg>\n",
        picture.svg
    )
}

fn main() {
    let paths: Vec<String> = std::env::args().skip(1).collect();
    let [blocks, places] = &paths[..] else {
        panic!("draw BLOCKS PL > SVG");
    };
    let read = |path: &String| std::fs::read_to_string(path).expect("a text");
    let mut packed = read_blocks(&read(blocks));
    read_places(&read(places), &mut packed);
    print!("{}", draw(&packed));
}
