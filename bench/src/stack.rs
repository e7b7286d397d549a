//! How much stack each operation uses: the stack below the caller is painted, and the lowest byte that changed is
//! looked up after the call.

use crate::data::Setting;
use crate::slow;

const PAINTED: usize = 1 << 20;
const PAINT: u8 = 0xA5;
/// Left alone right below the caller, for the frame of painting itself.
const MARGIN: usize = 512;

type Used = [usize; 6];

pub fn run() {
    let thread = std::thread::Builder::new().stack_size(4 * PAINTED).spawn(print).unwrap();
    thread.join().unwrap();
}

fn print() {
    println!("\nstack: bytes below the caller ({MARGIN} stands for as much or less)");
    print!("{:46}{:>8}{:>10}{:>8}{:>8}", "filter", "check", "evaluate", "mark", "watch");
    println!("{:>12}{:>10}", "fault text", "conjoin");
    let setting = Setting::sample(122, 4);
    let mut most = [0; 6];
    for (name, query) in filters() {
        assert_eq!(fql::check(query.as_bytes(), &setting.table), Ok(()), "{name}");
        let used = of_all(query.as_bytes(), &setting.table, setting.instance(), &setting.run);
        print_row(name, used);
        most = greatest(most, used);
    }
    for input in slow::fast_to_evaluate() {
        most = greatest(most, of_all(&input.query, &input.table, &input.instance, &input.run()));
    }
    print_row("most, over the slow inputs without LIKE as well", most);
}

fn print_row(name: &str, used: Used) {
    print!("{name:46}{:>8}{:>10}{:>8}{:>8}", used[0], used[1], used[2], used[3]);
    println!("{:>12}{:>10}", used[4], used[5]);
}

fn greatest(a: Used, b: Used) -> Used {
    std::array::from_fn(|n| a[n].max(b[n]))
}

/// Of check, evaluate, mark, watch, fault text and conjoin, whatever they answer.
fn of_all(query: &[u8], table: &[u8], instance: &[u8], run: &[u8]) -> Used {
    let (mut marks, mut buffer) = ([0; 4], [0; fql::LONGEST_QUERY]);
    let fault_text = |number| used(|| fql::fault_text(query, table, number, 3).bytes().len() as u64);
    [
        used(|| u64::from(fql::check(query, table).is_ok())),
        used(|| u64::from(fql::evaluate(query, table, instance).is_ok())),
        used(|| u64::from(fql::mark(query, table, run, &mut marks).is_ok())),
        used(|| u64::from(fql::watch(query, table, run, 64, 32, &mut marks).is_ok())),
        [2, 3, 10, 11, 12, 20, 21, 22, 23, 24, 25].map(fault_text).into_iter().max().unwrap(),
        used(|| u64::from(fql::conjoin(query, query, table, &mut buffer).is_ok())),
    ]
}

/// What goes deepest in each part of the engine: the readers of patterns, datetimes and literals, and the joins.
fn filters() -> Vec<(&'static str, String)> {
    let like = |pattern: String| format!("Name LIKE '{pattern}'");
    let nested = |inner: &str| like(format!("{}{inner}{}", "(".repeat(8), ")*".repeat(8)));
    let alternatives = like(format!("{}{}{}", "(x|".repeat(8), "|".repeat(200), ")".repeat(8)));
    vec![
        ("comparisons, ANY, an array literal", "Temp > 0 AND ANY Dev = 14 OR Dev = {3,14}".into()),
        ("64 groups", vec!["(Dev[1] = Dev[2])"; 64].join(" OR ")),
        ("an array literal of 32 elements", format!("Dev = {{{}}}", ["0x000000000000000F"; 32].join(","))),
        ("a real", "R > -123456789012345.e-22".into()),
        ("a text with escapes", format!("Name = '{}'", "\\u01F600".repeat(100))),
        ("a datetime", "Since = '20051003112233.000000+000'".into()),
        ("a datetime with unknown digits", "Since = '200510********.******+000'".into()),
        ("a datetime beside a datetime", "Since <= Since".into()),
        ("a pattern of 8 groups inside one another", nested("x")),
        ("8 groups inside one another around 60 symbols", nested(&"x".repeat(60))),
        ("8 groups inside one another around 200 bars", nested(&"|".repeat(200))),
        ("8 groups inside one another, alternatives", alternatives),
        ("a pattern of 60 groups", like("(x)*".repeat(60))),
        ("a pattern of 128 empty groups", like("()".repeat(128))),
        ("a pattern of 60 symbols", like("x".repeat(60))),
        ("a pattern of 60 sets", like("[^x]".repeat(60))),
        ("a pattern of 84 ranges", like(format!("[{}]", "a-b".repeat(84)))),
        ("a pattern of 256 alternatives", like("|".repeat(255))),
        ("a pattern of 60 symbols and bars", like("x|".repeat(60))),
    ]
}

#[inline(never)]
fn used(mut call: impl FnMut() -> u64) -> usize {
    let here = 0u8;
    let caller = (&raw const here).addr();
    let (bottom, top) = (caller - PAINTED, caller - MARGIN);
    paint(bottom, top);
    std::hint::black_box(call());
    let lowest = (bottom..top).find(|&at| unsafe { (at as *const u8).read_volatile() } != PAINT);
    caller - lowest.unwrap_or(top)
}

/// The thread's stack is several times as large as what is painted, and nothing lives below the caller's frame.
#[inline(never)]
fn paint(bottom: usize, top: usize) {
    for at in bottom..top {
        unsafe { (at as *mut u8).write_volatile(PAINT) };
    }
}
