//! The three records, read and written.

/// Something for each node.
pub type Nodes = [u32; 64];

/// The count of each cell.
pub type Table = [u32; 4096];

pub struct Sheet {
    pub n: u32,
    pub t: u32,
    pub e: u32,
    pub p: u32,
    pub limit: u32,
}

pub struct Plan {
    pub n: u32,
    pub kind: u32,
    pub helpands: Nodes,
}

pub struct Moves {
    pub n: u32,
    pub e: u32,
}

pub fn word(bytes: &[u8], index: usize) -> u32 {
    let at = 4 * index;
    u32::from_le_bytes([bytes[at], bytes[at + 1], bytes[at + 2], bytes[at + 3]])
}

/// `count` words from the word `from` on.
pub fn words(bytes: &[u8], from: usize, count: usize) -> impl Iterator<Item = u32> + '_ {
    let words = bytes[4 * from..4 * (from + count)].chunks_exact(4);
    words.map(|bytes| word(bytes, 0))
}

/// The entries of two parallel arrays of `count` words, from the word `from` on.
pub fn entries(bytes: &[u8], from: usize, count: usize) -> impl Iterator<Item = (u32, u32)> + '_ {
    let (first, second) = bytes[4 * from..4 * (from + 2 * count)].split_at(4 * count);
    let pairs = first.chunks_exact(4).zip(second.chunks_exact(4));
    pairs.map(|(a, b)| (word(a, 0), word(b, 0)))
}

pub fn read_sheet(bytes: &[u8]) -> Result<Sheet, u32> {
    if bytes.len() < 12 {
        return Err(1);
    }
    let (n, t, e) = (word(bytes, 0), word(bytes, 1), word(bytes, 2));
    check_ranges(n, t)?;
    if e > n * n {
        return Err(4);
    }
    if bytes.len() != 4 * (3 + 2 * e as usize) {
        return Err(5);
    }
    let mut low = 0;
    for cell in words(bytes, 3, e as usize) {
        if cell < low || cell / 64 >= n || cell % 64 >= n {
            return Err(6);
        }
        low = cell + 1;
    }
    let mut p = 0;
    for count in words(bytes, 3 + e as usize, e as usize) {
        if count == 0 || count > 1_000_000_000 - p {
            return Err(7);
        }
        p += count;
    }
    let limit = limit(p, n, t);
    Ok(Sheet { n, t, e, p, limit })
}

/// Refuses N and t outside their ranges.
pub fn check_ranges(n: u32, t: u32) -> Result<(), u32> {
    if !(1..=64).contains(&n) {
        return Err(2);
    }
    if !(1..=999).contains(&t) {
        return Err(3);
    }
    Ok(())
}

fn limit(p: u32, n: u32, t: u32) -> u32 {
    let loose = u64::from(p) * u64::from(1000 + t) / u64::from(1000 * n);
    let even = (p + n - 1) / n;
    even.max(loose as u32)
}

pub fn read_plan(bytes: &[u8]) -> Result<Plan, u32> {
    if bytes.len() < 12 {
        return Err(11);
    }
    let (n, kind, limit) = (word(bytes, 0), word(bytes, 1), word(bytes, 2));
    if !(1..=64).contains(&n) {
        return Err(12);
    }
    if kind > 2 || (kind != 0 && n == 1) {
        return Err(13);
    }
    if limit > 1_999_000_000 {
        return Err(14);
    }
    let nodes = n as usize;
    if bytes.len() != 4 * (3 + 2 * nodes) {
        return Err(15);
    }
    let mut helpands = [0; 64];
    for (helpand, word) in helpands.iter_mut().zip(words(bytes, 3, nodes)) {
        if word >= n {
            return Err(16);
        }
        *helpand = word;
    }
    if !shape_fine(&helpands, nodes, kind) {
        return Err(17);
    }
    for (node, share) in words(bytes, 3 + nodes, nodes).enumerate() {
        if share > limit || (share != 0 && helpands[node] as usize == node) {
            return Err(18);
        }
    }
    Ok(Plan { n, kind, helpands })
}

fn shape_fine(helpands: &Nodes, n: usize, kind: u32) -> bool {
    let is_root = |&node: &usize| helpands[node] as usize == node;
    let roots = (0..n).filter(is_root).count();
    if kind == 0 {
        return roots == n;
    }
    roots == 1 && (0..n).all(|node| reaches_root(helpands, n, node))
}

fn reaches_root(helpands: &Nodes, n: usize, node: usize) -> bool {
    let mut at = node;
    for _ in 0..=n {
        let next = helpands[at] as usize;
        if next == at {
            return true;
        }
        at = next;
    }
    false
}

pub fn read_moves(bytes: &[u8]) -> Result<Moves, u32> {
    if bytes.len() < 8 {
        return Err(31);
    }
    let (n, e) = (word(bytes, 0), word(bytes, 1));
    if !(1..=64).contains(&n) {
        return Err(32);
    }
    if e > n * (n - 1) {
        return Err(33);
    }
    if bytes.len() != 4 * (2 + 2 * e as usize) {
        return Err(34);
    }
    let mut low = 0;
    for route in words(bytes, 2, e as usize) {
        let (subdomain, sender, receiver) = (route / 4096, route / 64 % 64, route % 64);
        if route < low || subdomain >= n || sender >= n || receiver >= n || sender == receiver {
            return Err(35);
        }
        low = route + 1;
    }
    let counts_fine =
        words(bytes, 2 + e as usize, e as usize).all(|count| count != 0 && count <= 1_000_000_000);
    if !counts_fine {
        return Err(36);
    }
    Ok(Moves { n, e })
}

/// The table of an accepted sheet.
pub fn unpack(bytes: &[u8], e: usize) -> Table {
    let mut table = [0; 4096];
    add(&mut table, bytes, e);
    table
}

/// Adds the counts of an accepted sheet to a table.
pub fn add(table: &mut Table, bytes: &[u8], e: usize) {
    for (cell, count) in entries(bytes, 3, e) {
        table[cell as usize] += count;
    }
}

/// Writes words to the front of a buffer that is long enough.
pub fn put_words(out: &mut [u8], words: &[u32]) {
    for (bytes, word) in out.chunks_exact_mut(4).zip(words) {
        bytes.copy_from_slice(&word.to_le_bytes());
    }
}

/// Writes a record to the front of a buffer that is long enough.
pub fn put_record(out: &mut [u8], sizes: &[u32], first: &[u32], second: &[u32]) {
    put_words(out, sizes);
    put_words(&mut out[4 * sizes.len()..], first);
    put_words(&mut out[4 * (sizes.len() + first.len())..], second);
}

/// Writes a sheet into a buffer of its length.
pub fn put_sheet(out: &mut [u8], sizes: &[u32; 3], cells: &[u32]) {
    put_words(out, sizes);
    let (first, second) = out[12..].split_at_mut(4 * sizes[2] as usize);
    let filled = cells.iter().enumerate().filter(|(_, &count)| count != 0);
    let places = first.chunks_exact_mut(4).zip(second.chunks_exact_mut(4));
    for ((cell, count), (cell_place, count_place)) in filled.zip(places) {
        cell_place.copy_from_slice(&(cell as u32).to_le_bytes());
        count_place.copy_from_slice(&count.to_le_bytes());
    }
}
