//! Lines and their answers, of both engines.

use conform::{answer, serve, Engine, Proved, Second, BAD_CASE, LINE_MAX};

const ENGINES: [&dyn Engine; 2] = [&Proved, &Second];

/// Each case with its answer below it.
fn assert_answers(lines: &str) {
    let lines: Vec<&str> = lines.lines().map(str::trim_start).collect();
    for pair in lines.chunks_exact(2) {
        for engine in ENGINES {
            assert_eq!(answer(engine, pair[0].as_bytes()), pair[1], "{}", pair[0]);
        }
    }
}

fn assert_bad(line: &[u8]) {
    for engine in ENGINES {
        let shown = String::from_utf8_lossy(line);
        assert_eq!(answer(engine, line), BAD_CASE, "{shown:.200}");
    }
}

#[test]
fn the_examples_of_the_page() {
    let page = include_str!("../../../docs/CONFORMANCE.md");
    let examples = page.rsplit("```").nth(1).unwrap().trim_start();
    assert!(examples.starts_with("run 85831500 ") && examples.lines().count() >= 8);
    assert_answers(examples);
}

#[test]
fn every_family_good_and_refused() {
    assert_answers(
        "decode 85 0
         ok 1 128 5 0 0 0 0 0 0
         decode c901ffff20 0
         ok 4 192 0 2 2 1 65535 0 0
         decode - 65535
         refused 1
         encode 192 0 2 2 1 65535 0 0 aaaaaaaaaa
         ok 4 c901ffffaa
         encode 0 0 0 0 0 0 0 0 -
         refused 25 -
         encode 255 0 0 0 0 0 0 0 12
         refused 26 12
         shape 59
         row 2 0 1
         shape 91
         illegal
         step 3700 09 00000007 0 1 running
         ok 1 2 1 running 07 00000007
         step 00 - - 5 0 faulted:255
         ok 0 5 0 faulted:255 - -
         step 00 01 0002 0 2 halted
         refused 24 0 2 halted 01 0002
         run c901ffff20 01 00000000 0 0 running 4294967295
         ok 1 4 2 faulted:6 01 ffff0001
         run 85 - 0000 0 0 running 0
         ok 0 0 0 running - 0000
         run 00 - 0000 0 2 running 1
         refused 24 0 2 running - 0000
         verify 85831500 1 0007000700070007
         refused 5 1 ffffffffffffffff
         verify - 0 -
         refused 1 0 -
         verify 00 1025 0001
         refused 22 - 0001
         verify 00 0 00010001
         refused 23 - 00010001
         listing 00 ffffffffffffffffffffff
         ok 10 303030302068616c740aff
         listing 00 ff
         refused 25 ff
         read 8585 1
         ok 1 128 5 0 0 0 0 0 0 @ 1
         read 857f 3
         ok 1 128 5 0 0 0 0 0 0 ; refused 2 ; refused 2 @ 1
         pack 0100070002000a00040085831500
         ok 1 7 2 10 4
         pack 0000
         ok 0
         pack -
         refused 30
         find 0100070002000a00040085831500 7
         found 2 10 4
         find 00 7
         refused 30
         lookup 0100070002000a00040085831500 7
         found 2 10 4
         lookup 0100070002000a00040085831500 8
         refused 36
         lookup 0100070002000a000400858315 7
         refused 34
         lookup 0100070001040a00040085831500 7
         refused 35
         lookup 01000700010400000000 6
         refused 36
         lookup 02000700000000000000060001000200030000 6
         found 1 2 3
         lookup - 7
         refused 30
         writepack 0007 0002 0004 85831500 ffffffffffffffffffffffffffffffff
         ok 14 0100070002000a00040085831500ffff
         writepack 0007 0002 0004 85831500 ff
         refused 25 ff
         writepack - - - - ffff
         ok 2 0000
         report 0000
         -
         report 00
         pack refused 30|
         report 0200010000001200000002000000120001007f
         0001 refused 1 at 0000|0002 refused 2 at 0000|
         stream 0100070002000a00040085831500 close
         ok ; good 1 7 accepted
         stream 0200010000001200000002000000120001007f close
         ok ; good 2 1 refused 1 0 2 refused 2 0
         stream 0000 close
         ok ; good 0
         stream 0100070002000a00040085831500 00 close
         ok ; ok ; refused 34",
    );
}

/// What may come to an admission, before the close and after it.
#[test]
fn events_of_a_stream() {
    assert_answers(
        "stream -
         ok
         stream ask
         open
         stream close
         refused 30
         stream close close ask - close 00 ask
         refused 30 ; refused 37 ; refused 30 ; refused 37 ; refused 37 ; refused 37 ; refused 30
         stream - ask 00 ask - 00 ask close ask
         ok ; open ; ok ; open ; ok ; ok ; open ; good 0 ; good 0
         stream 0000 close - 00 close ask ask
         ok ; good 0 ; refused 37 ; refused 37 ; refused 37 ; good 0 ; good 0
         stream 0100070000000a000000 ask close 0100070000000a000000 close ask
         ok ; open ; good 1 7 refused 1 0 ; refused 37 ; refused 37 ; good 1 7 refused 1 0
         stream 0100070002000a000400858315 close 00 ask
         ok ; refused 34 ; refused 37 ; refused 34
         stream 4100 ask 00 ask close ask
         ok ; open ; ok ; open ; refused 30 ; refused 30",
    );
    for line in [
        "stream",
        "stream ",
        "stream  close",
        "stream close ",
        "stream close  ask",
        "stream 0",
        "stream 000",
        "stream 0G",
        "stream AB",
        "stream --",
        "stream close:",
        "stream Close",
        "stream asked",
        "stream close 0",
        "stream\tclose",
        "STREAM close",
    ] {
        assert_bad(line.as_bytes());
    }
}

/// Wherever a pack is cut in three, the close answers alike.
#[test]
fn every_cut_of_a_stream() {
    let pack = "0300010001001a000200050000041c00000006000100\
                1c0003008183813c00";
    for from in (0..=pack.len()).step_by(2) {
        for to in (from..=pack.len()).step_by(2) {
            let whole = |part: &str| match part {
                "" => "-".to_string(),
                _ => part.to_string(),
            };
            let parts = [&pack[..from], &pack[from..to], &pack[to..]].map(whole);
            let line = format!("stream {} {} {} close", parts[0], parts[1], parts[2]);
            let closed = "good 3 1 refused 5 1 5 refused 1 0 6 refused 10 1";
            for engine in ENGINES {
                let answer = answer(engine, line.as_bytes());
                assert_eq!(answer, format!("ok ; ok ; ok ; {closed}"), "{line}");
            }
        }
    }
}

/// Asked no time, a reader has no answers to join: what stands after them is left.
#[test]
fn a_reader_that_is_not_asked() {
    for engine in ENGINES {
        assert_eq!(answer(engine, b"read 00 0"), " @ 0");
    }
}

#[test]
fn sizes_over_the_limits_are_cases() {
    let over = "00".repeat(16_385);
    let data = "00".repeat(65_536);
    let cells = "0000".repeat(1_025);
    let cases = [
        (format!("decode {over} 0"), "refused 20".to_string()),
        (
            format!("run {over} - - 0 0 running 1"),
            "refused 20 0 0 running - -".to_string(),
        ),
        (
            format!("run 00 {data} - 0 0 running 1"),
            format!("refused 21 0 0 running {data} -"),
        ),
        (
            format!("step 00 - {cells} 0 0 running"),
            format!("refused 22 0 0 running - {cells}"),
        ),
        (
            format!("pack {}", "00".repeat(24_577)),
            "refused 31".to_string(),
        ),
        (
            format!("lookup {} 0", "00".repeat(24_577)),
            "refused 31".to_string(),
        ),
        (
            format!("lookup {} 0", "00".repeat(24_576)),
            "refused 36".to_string(),
        ),
        (
            format!("stream {} close 00 ask", "00".repeat(24_577)),
            "ok ; refused 31 ; refused 37 ; refused 31".to_string(),
        ),
        (
            format!("stream ffff {} ask 00 close", "00".repeat(24_574)),
            "ok ; ok ; open ; ok ; refused 31".to_string(),
        ),
        (
            format!("stream ffff {} close", "00".repeat(24_574)),
            "ok ; ok ; refused 30".to_string(),
        ),
        (
            format!("stream 00 {} close", "00".repeat(190_000)),
            "ok ; ok ; refused 31".to_string(),
        ),
    ];
    for (case, expected) in cases {
        for engine in ENGINES {
            assert_eq!(answer(engine, case.as_bytes()), expected);
        }
    }
}

#[test]
fn the_edges_of_each_range() {
    assert_answers(
        "decode 00 65535
         refused 1
         step 00 - - 65535 0 running
         ok 0 65535 0 faulted:1 - -
         step 00 - - 0 65535 running
         refused 24 0 65535 running - -
         verify 00 65535 0000
         refused 22 - 0000
         find 0000 65535
         refused 36
         lookup 0100ffff000000000000 65535
         found 0 0 0
         encode 255 65535 255 255 65535 65535 65535 65535 -
         refused 26 -
         decode 85 000
         ok 1 128 5 0 0 0 0 0 0
         shape 0
         row 1 0 0
         shape 255
         row 9 0 4
         shape 00200
         illegal
         step 00 - - 00 0 faulted:006
         ok 0 0 0 faulted:6 - -",
    );
    for line in [
        "decode 00 65536",
        "step 00 - - 65536 0 running",
        "step 00 - - 0 65536 running",
        "step 00 - - 0 0 faulted:256",
        "run 00 - - 0 0 running 4294967296",
        "run 00 - - 0 0 running 18446744073709551616",
        "verify 00 65536 0000",
        "read 00 65536",
        "find 0000 65536",
        "lookup 0000 65536",
        "encode 256 0 0 0 0 0 0 0 -",
        "encode 0 65536 0 0 0 0 0 0 -",
        "encode 0 0 256 0 0 0 0 0 -",
        "encode 0 0 0 256 0 0 0 0 -",
        "encode 0 0 0 0 65536 0 0 0 -",
        "encode 0 0 0 0 0 0 0 65536 -",
        "shape 256",
        "shape 65595",
        "shape 4294967355",
    ] {
        assert_bad(line.as_bytes());
    }
}

#[test]
fn fields_outside_their_kind() {
    for field in [
        "", "0", "000", "0g", "0G", "AB", "aB", "0x", "--", "-0", "00-", "+0", "00 ", " 00",
        "\t00", "00\r", "00\0", "é", "٣٣",
    ] {
        assert_bad(format!("pack {field}").as_bytes());
        assert_bad(format!("decode {field} 0").as_bytes());
        assert_bad(format!("verify - 0 {field}").as_bytes());
    }
    for field in ["00", "00000", "000000", "00fF"] {
        assert_bad(format!("verify - 0 {field}").as_bytes());
    }
    for field in [
        "", "-", "-1", "+1", "1.", "1.0", "1e1", "0x1", "a", " 1", "1 ", "1\r", "1,000", "1_0", "٣",
    ] {
        assert_bad(format!("decode 00 {field}").as_bytes());
        assert_bad(format!("shape {field}").as_bytes());
        assert_bad(format!("run 00 - - {field} 0 running 1").as_bytes());
        assert_bad(format!("run 00 - - 0 0 running {field}").as_bytes());
        assert_bad(format!("step 00 - - 0 0 faulted:{field}").as_bytes());
    }
    for status in [
        "",
        "-",
        "Running",
        "runnin",
        "running ",
        "halted:0",
        "faulted",
        "faulted:",
        "faulted 6",
        "0",
    ] {
        assert_bad(format!("step 00 - - 0 0 {status}").as_bytes());
    }
}

#[test]
fn fields_missing_and_too_many() {
    let cases = [
        "decode 00 0",
        "encode 0 0 0 0 0 0 0 0 00",
        "shape 0",
        "step 00 - - 0 0 running",
        "run 00 - - 0 0 running 1",
        "verify 00 0 0000",
        "listing 00 00",
        "read 00 1",
        "pack 0000",
        "find 0000 1",
        "lookup 0000 1",
        "writepack - - - - 0000",
        "report 0000",
    ];
    for case in cases {
        for engine in ENGINES {
            assert_ne!(answer(engine, case.as_bytes()), BAD_CASE);
        }
        assert_bad(format!("{case} ").as_bytes());
        assert_bad(format!("{case} 0").as_bytes());
        assert_bad(format!("{case} -").as_bytes());
        assert_bad(format!(" {case}").as_bytes());
        assert_bad(case.replacen(' ', "  ", 1).as_bytes());
        assert_bad(case.replacen(' ', "\t", 1).as_bytes());
        assert_bad(case.to_uppercase().as_bytes());
        let mut shorter = case;
        while let Some((rest, _)) = shorter.rsplit_once(' ') {
            assert_bad(rest.as_bytes());
            shorter = rest;
        }
    }
    for line in [
        "verif 00 0 0000",
        "list 00 00",
        " ",
        "-",
        "ok 1",
        "\r",
        "\0",
    ] {
        assert_bad(line.as_bytes());
    }
    assert_bad(b"\xFF\xFE");
    assert_bad(b"pack 00\xC3");
}

#[test]
fn a_line_has_its_length() {
    let longest = format!("find {} 07", "0".repeat(LINE_MAX - 8));
    assert_eq!(longest.len(), LINE_MAX);
    for engine in ENGINES {
        assert_eq!(answer(engine, longest.as_bytes()), "refused 31");
    }
    assert_bad(longest.replace(" 07", " 007").as_bytes());
}

/// An input that gives so many bytes at a time.
struct Pieces<'a>(&'a [u8], usize);

impl std::io::Read for Pieces<'_> {
    fn read(&mut self, room: &mut [u8]) -> std::io::Result<usize> {
        let count = self.1.min(room.len()).min(self.0.len());
        room[..count].copy_from_slice(&self.0[..count]);
        self.0 = &self.0[count..];
        Ok(count)
    }
}

fn served(input: &[u8], piece: usize) -> Vec<u8> {
    let mut output = Vec::new();
    serve(&Proved, Pieces(input, piece), &mut output).unwrap();
    output
}

#[test]
fn lines_of_an_input() {
    let input = b"# caf\xE9 \xFF\r\n\n\ndecode 00 0\r\nreport 0000\n#\nnone\n\0\nfind 0000 1";
    let output = b"# caf\xE9 \xFF\r\n\n\nbad case\n-\n#\nbad case\nbad case\nrefused 36\n";
    for piece in [1, 2, 7, 1_000] {
        assert_eq!(served(input, piece), output);
    }
    assert_eq!(served(b"", 9), b"");
    assert_eq!(served(b"\n", 9), b"\n");
    assert_eq!(served(b"#", 9), b"#\n");
}

#[test]
fn lines_of_any_length() {
    let long = vec![b'x'; 3 * LINE_MAX];
    let mut input = [b"#".as_slice(), &long, b"\nreport 0000\n", &long].concat();
    let comment = 3 * LINE_MAX + 2;
    let output = served(&input, 50_000);
    assert_eq!(output[..comment], input[..comment]);
    assert_eq!(output[comment..], *b"-\nbad case\n");
    input.extend(b"\nreport 0000\n");
    assert!(served(&input, 50_000).ends_with(b"-\nbad case\n-\n"));
    let mut limit = b"find ".to_vec();
    limit.resize(LINE_MAX - 3, b'0');
    limit.extend(b" 07\nreport 0000");
    assert_eq!(served(&limit, 1_000), b"refused 31\n-\n");
    limit.insert(6, b'0');
    assert_eq!(served(&limit, 1_000), b"bad case\n-\n");
}

/// Numbers from a seed (a xorshift generator).
struct Seeded(u64);

impl Seeded {
    fn below(&mut self, limit: usize) -> usize {
        self.0 ^= self.0 << 13;
        self.0 ^= self.0 >> 7;
        self.0 ^= self.0 << 17;
        (self.0 >> 32) as usize % limit
    }
}

/// Cases with bytes altered, left out, doubled and put in: each has an answer, in one
/// line, and the engines agree.
#[test]
fn damaged_lines() {
    let cases: [&[u8]; 14] = [
        b"decode c901ffff20 0",
        b"encode 192 0 2 2 1 65535 0 0 aaaaaaaaaa",
        b"shape 59",
        b"step 3700 09 00000007 0 1 running",
        b"run 833700 3d0600 00330000 0 0 faulted:6 100",
        b"verify 85831500 2 0000000000000000",
        b"listing 85831500 ffffffffffffffffff",
        b"read 85831500 5",
        b"pack 0100070002000a00040085831500",
        b"find 0100070002000a00040085831500 7",
        b"lookup 0100070002000a00040085831500 7",
        b"writepack 0007 0002 0004 85831500 ffffffffffffffffffffffffffffffff",
        b"report 0100070002000a00040085831500",
        b"stream 01 00070002000a00040085831500 close - ask",
    ];
    let put = b"0123456789abcdef -#:;|\t\r\0\xFF\xC3Ag";
    let mut seeded = Seeded(0x5EED);
    let mut bad = 0;
    for turn in 0..20_000 {
        let mut line = cases[turn % cases.len()].to_vec();
        for _ in 0..=seeded.below(2) {
            let at = seeded.below(line.len());
            let byte = put[seeded.below(put.len())];
            match seeded.below(8) {
                0 => line.insert(at, byte),
                1 => line.insert(at, line[at]),
                2 => drop(line.remove(at)),
                _ => line[at] = byte,
            }
            if line.is_empty() {
                line.push(b' ');
            }
        }
        let proved = answer(&Proved, &line);
        let shown = String::from_utf8_lossy(&line);
        assert_eq!(answer(&Second, &line), proved, "{shown}");
        assert!(!proved.contains('\n'), "{shown}");
        bad += usize::from(proved == BAD_CASE);
    }
    assert!((5_000..18_000).contains(&bad), "{bad}");
}
