//! Times of the proved crates as ratios against the Rust implementation of this project: same
//! inputs, same machine, one run, the two taking turns. `cargo run --release --bin bench`.

#[cfg(not(all(proved, benched)))]
fn main() {
    eprintln!("rt lib in crates/api_c and in crates/test_bench comes first");
    std::process::exit(1);
}

#[cfg(all(proved, benched))]
fn main() {
    proved::main();
}

#[cfg(all(proved, benched))]
mod proved {
    use reference::batches::{check, fresh, Batch, Left};
    use reference::board::{Board, REFERENCE};
    use reference::compare::compiled;
    use reference::generate::random::{Random, SEED};
    use reference::generate::rows::{gcd, headways, small};
    use reference::loops::{self, Loop};
    use reference::proved::PLAIN;
    use std::hint::black_box;
    use std::time::Instant;

    /// How often the two take turns; the middle of the ratios is printed.
    const TURNS: usize = 21;

    /// A text of this many bytes: assignments of sums, some tests and loops, one wait each. Its
    /// statements are long enough that 16,384 bytes have fewer than 512 of them.
    fn long_text(bytes: usize) -> Vec<u8> {
        let head = "entity long is port ( clk : in std_logic; d : in integer; q : out integer := 0 ); \
                    end long;\narchitecture a of long is begin process\n  variable s, u : integer := 0;\n\
                    begin\n";
        let tail = "  wait until clk = '1';\nend process; end a;\n";
        let parts = [
            "  s := s + d - 7 + (u - 3) - (d + 12) + 100;\n",
            "  if (s > 100) or (u /= s) or (d - u > 12) then u := d + 1 - (s - u) + 7; else s := u - 12 + (d - s); end if;\n",
            "  q <= s - u + (d - 3) + 2147483 - (u + 17) + (s - d) - 4096;\n",
            "  while s > 1000 loop s := s - 100 + (d - u) - (u - 8); wait until clk = '1'; end loop;\n",
            "  null; -- a line with a comment, as writers put them, up to the end of the line\n",
        ];
        let mut text = head.to_string();
        for part in parts.iter().cycle() {
            if text.len() + part.len() + tail.len() > bytes {
                break;
            }
            text += part;
        }
        text += &" ".repeat(bytes - text.len() - tail.len());
        text += tail;
        text.into_bytes()
    }

    /// 512 statements: a way of 512 lines, the wait at its end included.
    fn many_statements() -> Vec<u8> {
        let mut text =
            "entity many is port(clk:in std_logic;d:in integer;q:out integer:=0);end many;\
                        architecture a of many is begin process variable s:integer:=0;begin "
                .to_string();
        for k in 0..511 {
            text += if k % 3 == 0 { "s:=s+d;" } else { "q<=s-d;" };
        }
        text += "wait until clk='1';end process;end a;";
        text.into_bytes()
    }

    /// The middle of some numbers.
    fn middle(mut numbers: Vec<f64>) -> f64 {
        numbers.sort_by(f64::total_cmp);
        numbers[numbers.len() / 2]
    }

    /// The seconds that so many calls take.
    fn seconds(times: usize, mut call: impl FnMut()) -> f64 {
        let start = Instant::now();
        for _ in 0..times {
            call();
        }
        start.elapsed().as_secs_f64()
    }

    /// Both take turns, each calling so many times; the middle ratio, and the middle time of one of
    /// the `units` of work of each.
    fn compare(
        label: &str,
        times: usize,
        units: usize,
        mut ours: impl FnMut(),
        mut theirs: impl FnMut(),
    ) {
        let (mut ratios, mut proved, mut other) = (Vec::new(), Vec::new(), Vec::new());
        for _ in 0..TURNS {
            let first = seconds(times, &mut ours);
            let second = seconds(times, &mut theirs);
            ratios.push(first / second);
            proved.push(first / (times * units) as f64 * 1e6);
            other.push(second / (times * units) as f64 * 1e6);
        }
        let (ratio, proved, other) = (middle(ratios), middle(proved), middle(other));
        println!("{label:<44} {ratio:>6.2}   {proved:>10.3} us {other:>10.3} us");
    }

    /// A refused text would be timed up to its refusal only.
    fn accepted(label: &str, text: &[u8]) {
        for board in [&PLAIN, &REFERENCE] {
            let answer = (board.compile)(text, &mut [0; 65_535]);
            assert_eq!(answer[0], 0, "{label}: refused at {}", answer[1]);
        }
    }

    fn compile(label: &str, text: &[u8], times: usize) {
        let call = |board: &Board, image: &mut [u8]| {
            black_box((board.compile)(black_box(text), image));
        };
        let (mut image, mut other) = (vec![0; 65_535], vec![0; 65_535]);
        accepted(label, text);
        let ours = || call(&PLAIN, &mut image);
        compare(label, times, 1, ours, || call(&REFERENCE, &mut other));
    }

    fn open(label: &str, image: &[u8], times: usize) {
        let call = |board: &Board| {
            black_box((board.open)(black_box(image)));
        };
        compare(label, times, 1, || call(&PLAIN), || call(&REFERENCE));
    }

    /// All rows by one loop of each; both leave the same before anything is timed.
    fn rows(label: &str, times: usize, [ours, theirs]: [Loop; 2], bytes: &[u8], of: &Rows) {
        let call = |run: Loop| {
            let mut row = vec![0; of.outputs];
            let lines = black_box(run(black_box(bytes), &of.values, of.width, &mut row));
            (lines, row)
        };
        let before = call(ours);
        assert_eq!(before, call(theirs), "{label}: the two do not agree");
        assert!(before.0 >= of.count(), "{label}: fewer lines than rows");
        let turn = |run: Loop| {
            black_box(call(run));
        };
        compare(label, times, of.count(), || turn(ours), || turn(theirs));
    }

    /// The rows of a text.
    struct Rows {
        values: Vec<i32>,
        width: usize,
        outputs: usize,
    }

    impl Rows {
        fn count(&self) -> usize {
            self.values.len() / self.width
        }
    }

    /// The cycle on a checked image, the cycle with the check, the direct run.
    fn cycles(name: &str, text: &[u8], of: &Rows, times: usize) {
        let image = compiled(&REFERENCE, text);
        let (ours, theirs) = (loops::PROVED, loops::REFERENCE);
        let label = format!("cycle on a checked image, {name}");
        rows(&label, times, [ours.opened, theirs.opened], &image, of);
        let label = format!("cycle with the check, {name}");
        rows(&label, times, [ours.checked, theirs.checked], &image, of);
        let label = format!("direct run, {name}");
        let fewer = times / 20 + 1;
        rows(&label, fewer, [ours.direct, theirs.direct], text, of);
        open(&format!("open, {name}"), &image, 20 * times);
    }

    /// All rows in one call, against the same rows by single calls of the same interface, and against
    /// this implementation's one call.
    fn in_one_call(name: &str, text: &[u8], of: &Rows, times: usize) {
        let image = compiled(&REFERENCE, text);
        let batch = Batch::due(&image, &fresh(&image), of.count(), of.values.clone());
        let left = check(&PLAIN, &batch);
        assert_eq!(left.answer, [0, 0, 0], "{name}: refused");
        let (mut ours, mut theirs) = (left.clone(), left);
        let one = |board: &Board, left: &mut Left| {
            left.state = batch.state;
            let image = black_box(&batch.image);
            let (outputs, answers) = (&mut left.outputs, &mut left.answers);
            let (count, inputs) = (batch.count, &batch.inputs);
            black_box((board.cycles)(
                image,
                &mut left.state,
                count,
                inputs,
                outputs,
                answers,
            ));
        };
        let single = |left: &mut Left| {
            left.state = batch.state;
            for (row, told) in left.answers.chunks_exact_mut(3).enumerate() {
                let image = black_box(&batch.image);
                let values = &batch.inputs[row * of.width..][..of.width];
                let part = &mut left.outputs[row * of.outputs..][..of.outputs];
                told.copy_from_slice(&(PLAIN.cycle)(image, &mut left.state, values, part));
            }
        };
        let label = format!("one call against single calls, {name}");
        let call = || one(&PLAIN, &mut ours);
        compare(&label, times, of.count(), call, || single(&mut theirs));
        let label = format!("one call, {name}");
        let call = || one(&PLAIN, &mut ours);
        compare(&label, times, of.count(), call, || {
            one(&REFERENCE, &mut theirs)
        });
    }

    /// How the time of a compile grows with the text: the two lengths take turns, since the
    /// machine's own speed changes from one second to the next.
    fn growth() {
        for bytes in [8192, 16384] {
            let texts = [long_text(bytes / 2), long_text(bytes)];
            let mut image = vec![0; 65_535];
            let mut time = |text: &[u8]| {
                accepted("growth", text);
                seconds(20, || {
                    black_box((PLAIN.compile)(black_box(text), &mut image));
                })
            };
            let ratio = |_| {
                let half = time(&texts[0]);
                time(&texts[1]) / half
            };
            let ratios = (0..TURNS).map(ratio).collect();
            println!("growth to {bytes} bytes: {:.2}", middle(ratios));
        }
    }

    pub fn main() {
        let tally = include_bytes!("../../../../examples/tally/process.vhd");
        let gcd_text = include_bytes!("../../../../examples/gcd/process.vhd");
        let headway = include_bytes!("../../../../examples/headway/process.vhd");
        let (many, long) = (many_statements(), long_text(16_384));
        println!(
            "{:<44} {:>6}   {:>13} {:>13}",
            "", "ratio", "proved", "Rust"
        );
        compile("compile tally", tally, 400);
        compile("compile 16,384 bytes", &long, 20);
        compile("compile 512 statements", &many, 40);
        growth();
        let mut random = Random::new(SEED);
        let of = |values, width, outputs| Rows {
            values,
            width,
            outputs,
        };
        let tally_rows = of(small(400, &mut random), 1, 1);
        let gcd_rows = of(gcd(400, &mut random), 3, 2);
        let many_rows = of(small(40, &mut random), 1, 1);
        let headway_rows = of(headways(400, &mut random), 4, 5);
        let long_rows = of(small(400, &mut random), 1, 1);
        cycles("tally", tally, &tally_rows, 40);
        cycles("gcd", gcd_text, &gcd_rows, 20);
        cycles("512 lines", &many, &many_rows, 20);
        cycles("headway", headway, &headway_rows, 20);
        cycles("16,384 bytes", &long, &long_rows, 20);
        println!("many rows; the bar against single calls, in the place of Rust, is 0.75 each");
        in_one_call("tally", tally, &tally_rows, 40);
        in_one_call("gcd", gcd_text, &gcd_rows, 20);
        in_one_call("512 lines", &many, &many_rows, 20);
        in_one_call("16,384 bytes", &long, &long_rows, 20);
    }
}
