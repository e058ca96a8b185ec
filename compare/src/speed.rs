// `compare speed`: how long the original's tokenizer and our reader take over the same templates.

use std::fs;
use std::hint::black_box;
use std::time::{Duration, Instant};

use crate::original;

extern "C" {
    fn farkeztu_read(template: *const u8, len: usize, sum: *mut u64) -> u32;
    fn farkeztu_read_by_matcher(template: *const u8, len: usize, sum: *mut u64) -> u32;
}

// About how many bytes a template has that is made here.
const BYTES: usize = 1 << 20;

// For how long each is read again and again; the fastest reading counts.
const TIME: Duration = Duration::from_millis(1500);

// What templates are made of: a name, and what is repeated.
const CASES: [(&str, &str); 9] = [
    ("text", "The quick brown fox jumps over the lazy dog; left bank (4), right hand (5).\n"),
    ("text in one line", "The quick brown fox jumps over the lazy dog; left bank (4), right hand (5). "),
    ("Japanese text", "ナンプレ、クロスワード、左岸（四）の手がかり。\n"),
    ("comments", "{# a comment about the clue, for the editor #}some text between\n"),
    ("raw blocks", "{% raw %}this is {{ not }} a {% tag %} at all{% endraw %}text\n"),
    ("a line for a tag", "Across: the left side of the river, where the money is. {{ clue.number }}, {{ clue.lengths }}\n"),
    ("tags", "{% for clue in clues %}<li>{{ clue.number }}. {{ clue.text|escape }} ({{ clue.lengths|join(', ') }})</li>\n{% endfor %}\n"),
    ("expressions", "{{ a + b * 12.5e3 - foo(bar, \"x y\", 'k\\n') // 7 ** 0xff }}"),
    ("trims", "{%- if x -%}    \n    hello   {%- endif -%}   \n"),
];

// Times what is made here, and the files named.
pub fn run(files: &[String]) -> Result<bool, String> {
    println!("nanoseconds for a byte by the default finder, and by the other one; how many times as fast ours is");
    println!(
        "{:<24} {:>9} {:>9} {:>9} {:>7} {:>9} {:>9} {:>7}",
        "", "bytes", "original", "ours", "", "original", "ours", ""
    );
    for (name, part) in CASES {
        time(name, &part.repeat(BYTES / part.len()))?;
    }
    for file in files {
        let text = fs::read_to_string(file).map_err(|error| format!("{file}: {error}"))?;
        time(file, &text)?;
    }
    Ok(true)
}

// Times one template by both finders.
fn time(name: &str, template: &str) -> Result<(), String> {
    let mut columns = String::new();
    for by_matcher in [false, true] {
        let original = fastest(|| original::count(template, by_matcher));
        let ours = fastest(|| read(template.as_bytes(), by_matcher));
        let (Some(original), Some(ours)) = (original, ours) else {
            return Err(format!("{name}: a reading ends in a fault"));
        };
        let bytes = template.len() as f64;
        columns += &format!(
            " {:>9.3} {:>9.3} {:>7.2}",
            original / bytes,
            ours / bytes,
            original / ours
        );
    }
    println!("{name:<24} {:>9}{columns}", template.len());
    Ok(())
}

// How many nanoseconds the fastest of many calls takes; none where it tells nothing.
fn fastest(mut call: impl FnMut() -> u64) -> Option<f64> {
    let start = Instant::now();
    let mut best = Duration::MAX;
    while start.elapsed() < TIME {
        let begin = Instant::now();
        if black_box(call()) == 0 {
            return None;
        }
        best = best.min(begin.elapsed());
    }
    Some(best.as_nanos() as f64)
}

// How many pieces our reader tells of the template; 0 where it fails.
fn read(template: &[u8], by_matcher: bool) -> u64 {
    let read = match by_matcher {
        true => farkeztu_read_by_matcher,
        false => farkeztu_read,
    };
    let mut sum = 0;
    u64::from(unsafe { read(template.as_ptr(), template.len(), &mut sum) })
}
