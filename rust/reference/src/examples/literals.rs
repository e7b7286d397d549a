//! Literals: their range and value (01, "Query text"; number 23).

use super::setting::{array, octets, real32, real64, types, uint64};
use super::Example;
use super::Expected::{Excluded, Included, Refused};
use crate::kind::UINT64;

pub fn examples() -> Vec<Example> {
    let mut out = integers();
    out.extend(long_integers());
    out.extend(hexes());
    out.extend(reals());
    out.extend(long_reals());
    out.extend(values_of_reals());
    out.extend(indexes());
    out.extend(places());
    out
}

fn integers() -> Vec<Example> {
    let mut out = types().ask(&[
        ("I = 18446744073709551615", Excluded(1)),
        ("I = -18446744073709551615", Excluded(1)),
        ("I = 18446744073709551616", Refused(23, 4)),
        ("I = -18446744073709551616", Refused(23, 4)),
        ("I = +18446744073709551616", Refused(23, 4)),
        ("I < 18446744073709551615", Included(1)),
        ("I > -18446744073709551615", Included(1)),
        ("U = -5", Excluded(1)),
        ("U = +5", Included(1)),
        ("U = 0005", Included(1)),
        ("I = -0005", Included(1)),
        ("I = -101B", Included(1)),
        ("I = -0x05", Included(1)),
        ("I = 0xFB", Excluded(1)),
    ]);
    out.extend(types().with("U", uint64(0)).ask(&[("U = -0", Included(1)), ("U = -0x00", Included(1))]));
    out.extend(types().with("U", uint64(u64::MAX)).ask(&[
        ("U = 18446744073709551615", Included(1)),
        ("U = 0xffffFFFFffffFFFF", Included(1)),
        ("U > -1", Included(1)),
        ("U = -1", Excluded(1)),
    ]));
    out
}

fn long_integers() -> Vec<Example> {
    let mut out = types().ask(&[
        (format!("U = {:0>70}B", "101"), Included(1)),
        (format!("U = {}B", "1".repeat(65)), Refused(23, 4)),
        (format!("U = 1{}B", "0".repeat(64)), Refused(23, 4)),
        (format!("U = {}5", "0".repeat(3_000)), Included(1)),
        (format!("U = {}", "9".repeat(3_000)), Refused(23, 4)),
        (format!("U = 0x{}05", "00".repeat(100)), Included(1)),
        (format!("U = 0x{}", "00".repeat(100)), Excluded(1)),
        (format!("U = 0x01{}", "00".repeat(8)), Refused(23, 4)),
        (format!("U = -0x01{}", "00".repeat(8)), Refused(23, 4)),
    ]);
    let most = types().with("U", uint64(u64::MAX));
    out.extend(most.ask(&[(format!("U = {}B", "1".repeat(64)), Included(1))]));
    out
}

fn hexes() -> Vec<Example> {
    let mut out = types().ask(&[
        ("O = 0x0102", Included(1)),
        ("O = 0X0102", Included(1)),
        ("O = 0x01", Excluded(1)),
        ("O = 0x000102", Excluded(1)),
        ("O <> 0x000000000000000000", Included(1)),
        ("O = +0x0102", Refused(21, 0)),
        ("O = -0x00", Refused(21, 0)),
        ("O = 258", Refused(21, 0)),
        ("O = 101B", Refused(21, 0)),
        ("O = '0102'", Refused(21, 0)),
        ("Os = {0x01,0x0203}", Included(3)),
        ("Os = {0x01,-0x02}", Refused(21, 0)),
        ("ANY Os = 0x0203", Included(3)),
        ("U = 0x05", Included(1)),
        ("D = 0x05", Refused(21, 0)),
        ("S = 0x05", Refused(21, 0)),
        ("B = 0x01", Refused(21, 0)),
    ]);
    out.extend(types().with("O", octets(&[0xab, 0xcd])).ask(&[("O = 0xaBCd", Included(1))]));
    out.extend(types().with("O", octets(&[7; 2_000])).ask(&[(format!("O = 0x{}", "07".repeat(2_000)), Included(1))]));
    out.extend(types().with("O", octets(&[])).ask(&[("O = 0x00", Excluded(1)), ("O = O", Included(1))]));
    out
}

fn reals() -> Vec<Example> {
    types().ask(&[
        ("D = .5", Included(1)),
        ("D = 0.5", Included(1)),
        ("D = .50", Included(1)),
        ("D = +5.e-1", Included(1)),
        ("D = 50.0E-02", Included(1)),
        ("D = -.5", Excluded(1)),
        ("D = 000000000000000000.5", Included(1)),
        ("D = 1.E22", Excluded(1)),
        ("D = 1.E23", Refused(23, 4)),
        ("D = 1.0E23", Excluded(1)),
        ("D = 1.E-22", Excluded(1)),
        ("D = 1.E-23", Refused(23, 4)),
        ("D = 1.0E-22", Refused(23, 4)),
        ("D = 0.E23", Refused(23, 4)),
        ("D = .0E-22", Refused(23, 4)),
        ("D = 0.0E400", Refused(23, 4)),
        ("D = 999999999999999.", Excluded(1)),
        ("D = 1000000000000000.", Refused(23, 4)),
        ("D = -1000000000000000.", Refused(23, 4)),
        ("D = 1.00000000000000", Excluded(1)),
        ("D = 1.000000000000000", Refused(23, 4)),
        ("B = 1.0E400", Refused(21, 0)),
        ("U = 1.0E400", Refused(21, 0)),
        ("B = 99999999999999999999", Refused(21, 0)),
        ("D = 99999999999999999999", Refused(21, 0)),
        ("D = 5", Refused(21, 0)),
        ("U = 5.", Refused(21, 0)),
    ])
}

fn long_reals() -> Vec<Example> {
    types().ask(&[
        (format!("D = {}.5", "0".repeat(3_000)), Included(1)),
        (format!("D = 1.E{}", "9".repeat(3_000)), Refused(23, 4)),
        (format!("D = 1.E-{}", "9".repeat(3_000)), Refused(23, 4)),
        (format!("D = 5.E-{}1", "0".repeat(3_000)), Included(1)),
        (format!("D = 0.{}5E1000", "0".repeat(1_000)), Included(1)),
        (format!("D = .{}", "0".repeat(22)), Excluded(1)),
        (format!("D = .{}", "0".repeat(23)), Refused(23, 4)),
        (format!("D = {}.", "1".repeat(3_000)), Refused(23, 4)),
        ("D = 1.E18446744073709551616".to_owned(), Refused(23, 4)),
        ("D = 1.E-18446744073709551617".to_owned(), Refused(23, 4)),
    ])
}

fn values_of_reals() -> Vec<Example> {
    let mut out = Vec::new();
    for (value, literal) in [
        (0.1, ".1"),
        (123456789012345e-22, "123456789012345.E-22"),
        (999999999999999e22, "999999999999999.E22"),
        (-999999999999999e22, "-999999999999999.E22"),
        (1e23, "10.E22"),
        (0.0, "-0.0"),
        (-0.0, "0."),
    ] {
        out.extend(types().with("D", real64(value)).ask(&[(format!("D = {literal}"), Included(1))]));
    }
    out.extend(types().with("D", real64(0.1 + 0.2)).ask(&[("D = .3", Excluded(1))]));
    out.extend(types().with("F", real32(0.1)).ask(&[("F = .1", Excluded(1)), ("F > .1", Included(1))]));
    out
}

fn indexes() -> Vec<Example> {
    types().ask(&[
        ("Us[65535] = NULL", Included(1)),
        ("Us[65536] = NULL", Refused(23, 3)),
        ("Us[99999999999999999999] = NULL", Refused(23, 3)),
        ("Us[18446744073709551617] = 14", Refused(23, 3)),
        ("Us[00000000000000000000001] = 14", Included(1)),
        ("ANY Us = Us[65535]", Excluded(3)),
        ("ANY Us = Us[65536]", Refused(23, 12)),
        ("Us[0] = Us[65536]", Refused(23, 11)),
        ("Us[ 65536 ] = Us[65537]", Refused(23, 4)),
        ("Us[70000] = 18446744073709551616", Refused(23, 3)),
        ("Ss[65536] LIKE 'a'", Refused(23, 3)),
    ])
}

/// A literal starts at its sign or opening quote.
fn places() -> Vec<Example> {
    let mut out = types().ask(&[
        ("Us = {3, 18446744073709551616}", Refused(23, 9)),
        ("Us = {NULL, 99999999999999999999, -99999999999999999999}", Refused(23, 12)),
        ("ANY Us < -99999999999999999999", Refused(23, 9)),
        ("U = 5 AND I = +99999999999999999999", Refused(23, 14)),
        ("Ds = {1.E22,1.E23}", Refused(23, 12)),
    ]);
    out.extend(types().with("Us", array(UINT64, &[])).ask(&[("EVERY Us = 99999999999999999999", Refused(23, 11))]));
    out
}
