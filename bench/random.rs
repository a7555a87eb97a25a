//! Prints a script for the comparison of two programs: `random SEED`. Whole creations, moves and deliveries stand among single steps with
//! numbers that may not be there, and among lines that are not in the grammar. A seed gives the same script everywhere.

struct Random(u64);

impl Random {
    fn below(&mut self, n: u64) -> u64 {
        self.0 = self.0.wrapping_mul(6364136223846793005).wrapping_add(1442695040888963407);
        (self.0 >> 33) % n
    }
}

const BAD: [&str; 10] =
    ["", "x", "spawn=", "spawn=00000000001", "spawn=4294967296", "ask=0", "ask=0,1,2", " spawn=0", "spawn=0\r", "leap=-1"];
const ONE: [&str; 10] = ["spawn", "enrol", "greet", "grant", "leap", "book", "settle", "forward", "hand", "close"];

/// The lines of one turn: a single step, or the steps of a whole operation, the last of them left out now and then.
fn turn(r: &mut Random, agents: &mut u64, mails: &mut u64) -> Vec<String> {
    let (a, b, m) = (r.below(*agents), r.below(*agents), r.below(*mails + 1));
    let mut lines = match r.below(12) {
        0 => vec![BAD[r.below(10) as usize].to_string()],
        1 => vec![format!("sites={}", r.below(19))],
        2 => vec![format!("{}={}", ONE[r.below(10) as usize], r.below(*agents + 2))],
        3 => vec![format!("send={a},{},{b},{}", r.below(6), r.below(3))],
        4 | 5 => {
            let child = *agents;
            *agents = (*agents + 1).min(12);
            vec![format!("spawn={a}"), format!("enrol={child}"), format!("greet={child}")]
        }
        6 | 7 => {
            let mut whole = vec![format!("ask={a},{}", r.below(4))];
            whole.extend(["grant", "leap", "book", "settle"].iter().map(|word| format!("{word}={a}")));
            whole
        }
        8 | 9 => {
            *mails += 1;
            vec![format!("send={a},{},{b},{}", 1 + r.below(3), r.below(2))]
        }
        _ => ["forward", "hand", "close"].iter().map(|word| format!("{word}={m}")).collect(),
    };
    if r.below(3) == 0 && lines.len() > 1 {
        lines.pop();
    }
    lines
}

fn main() {
    let seed = std::env::args().nth(1).and_then(|word| word.parse().ok()).unwrap_or(0);
    let mut r = Random(seed);
    let (mut agents, mut mails) = (1, 0);
    let mut lines = vec![format!("sites={}", [3, 3, 4, 16, 2, 0][r.below(6) as usize])];
    for _ in 0..r.below(200) {
        lines.extend(turn(&mut r, &mut agents, &mut mails));
    }
    let end = if r.below(4) == 0 { "" } else { "\n" };
    print!("{}{end}", lines.join("\n"));
}
