//! What a comparison says, and its steps (01, "Meaning" and "Steps").

use super::setting::{array, char16, null, real32, real64, reference, text, truth, types, uint64};
use super::Example;
use super::Expected::{Excluded, Included, Refused};
use crate::kind::{REAL64, UINT64};

pub fn examples() -> Vec<Example> {
    let mut out = nulls();
    out.extend(indexes());
    out.extend(integers_and_truth());
    out.extend(special_reals());
    out.extend(widened_reals());
    out.extend(texts());
    out.extend(octets_and_references());
    out.extend(arrays());
    out.extend(arrays_with_nulls());
    out.extend(quantifiers());
    out.extend(quantifiers_on_few_elements());
    out.extend(quantifiers_and_nulls());
    out.extend(likes());
    out.extend(failures_without_values());
    out
}

fn nulls() -> Vec<Example> {
    let mut out = types().with("U", null()).with("S", null()).ask(&[
        ("U = NULL", Included(1)),
        ("U <> NULL", Excluded(1)),
        ("U = 5", Excluded(1)),
        ("U <> 5", Included(1)),
        ("U < 5", Excluded(1)),
        ("U >= 5", Excluded(1)),
        ("U = I", Excluded(1)),
        ("U <> I", Included(1)),
        ("U = U", Included(1)),
        ("U <> U", Excluded(1)),
        ("U <= U", Excluded(1)),
        ("S LIKE '.*'", Excluded(1)),
        ("S LIKE ''", Excluded(1)),
        ("S NOT LIKE '.*'", Included(1)),
        ("S = ''", Excluded(1)),
        ("S <> 'x'", Included(1)),
    ]);
    out.extend(types().with("U", null()).with("I", null()).ask(&[("U = I", Included(1)), ("U >= I", Excluded(1))]));
    out
}

fn indexes() -> Vec<Example> {
    let mut out = types().ask(&[
        ("Us[0] = 3", Included(1)),
        ("Us[1] > Us[0]", Included(1)),
        ("Us[2] = NULL", Included(1)),
        ("Us[2] <> 3", Included(1)),
        ("Us[2] < 3", Excluded(1)),
        ("Us[65535] <> NULL", Excluded(1)),
        ("Us[1] = U", Excluded(1)),
        ("Us[7] = Is[8]", Included(1)),
        ("Ss[1] LIKE 'b.'", Included(3)),
        ("Ss[5] LIKE '.*'", Excluded(1)),
        ("Ss[5] NOT LIKE ''", Included(1)),
        ("Cs[0] LIKE 'a'", Included(2)),
    ]);
    out.extend(types().with("Us", null()).ask(&[
        ("Us[0] = NULL", Included(1)),
        ("Us[0] <> 3", Included(1)),
        ("Us[0] > 3", Excluded(1)),
    ]));
    let none = types().with("Us", array(UINT64, &[null(), uint64(4)]));
    out.extend(none.ask(&[("Us[0] = NULL", Included(1)), ("Us[1] = 4", Included(1)), ("Us[0] = Us[2]", Included(1))]));
    out
}

fn integers_and_truth() -> Vec<Example> {
    let mut out = types().ask(&[
        ("I < U", Included(1)),
        ("U <= I", Excluded(1)),
        ("I = -5", Included(1)),
        ("B = TRUE", Included(1)),
        ("B <> false", Included(1)),
        ("B = FALSE", Excluded(1)),
        ("B = Bs[0]", Refused(11, 6)),
        ("Bs[1] = B", Excluded(1)),
    ]);
    out.extend(types().with("B", truth(false)).ask(&[("B = False", Included(1)), ("B <> B", Excluded(1))]));
    out
}

fn special_reals() -> Vec<Example> {
    let of = |x: f64| types().with("D", real64(x)).with("Ds", array(REAL64, &[real64(x)]));
    let mut out = of(f64::NAN).ask(&[
        ("D = D", Excluded(1)),
        ("D <> D", Included(1)),
        ("D <= D", Excluded(1)),
        ("D < 1.", Excluded(1)),
        ("D >= 1.", Excluded(1)),
        ("D <> 1.", Included(1)),
        ("D = NULL", Excluded(1)),
        ("Ds = Ds", Excluded(2)),
        ("Ds <> Ds", Included(2)),
        ("ANY Ds = D", Excluded(2)),
        ("EVERY Ds <> D", Included(2)),
    ]);
    out.extend(of(f64::INFINITY).ask(&[
        ("D = D", Included(1)),
        ("D > 999999999999999.E22", Included(1)),
        ("Ds = Ds", Included(2)),
        ("F < D", Included(1)),
    ]));
    out.extend(of(f64::NEG_INFINITY).ask(&[("D < -999999999999999.E22", Included(1)), ("D >= F", Excluded(1))]));
    out.extend(of(-0.0).ask(&[
        ("D = .0", Included(1)),
        ("D = -.0", Included(1)),
        ("D < .0", Excluded(1)),
        ("Ds = {0.0}", Included(2)),
    ]));
    out.extend(of(f64::from_bits(1)).ask(&[("D > 0.0", Included(1)), ("D < 1.E-22", Included(1))]));
    out
}

fn widened_reals() -> Vec<Example> {
    let of = |f: f32, d: f64| types().with("F", real32(f)).with("D", real64(d));
    let mut out = types().ask(&[("F = D", Included(1)), ("F = .5", Included(1))]);
    out.extend(of(0.1, 0.1).ask(&[("F = D", Excluded(1)), ("F > D", Included(1)), ("F = .1", Excluded(1))]));
    for f in [0.1f32, f32::from_bits(1), f32::MIN_POSITIVE, f32::MAX, f32::INFINITY, -0.0, 16_777_217.0] {
        out.extend(of(f, f64::from(f)).ask(&[("F = D", Included(1)), ("D <= F", Included(1))]));
    }
    out.extend(of(f32::NAN, f64::NAN).ask(&[("F = D", Excluded(1)), ("F <> D", Included(1)), ("F = F", Excluded(1))]));
    out
}

fn texts() -> Vec<Example> {
    let of = |s: &str| types().with("S", text(s));
    let mut out = types().ask(&[
        ("S = 'FAN_2'", Included(1)),
        ("S = 'fan_2'", Excluded(1)),
        ("S <> 'fan_2'", Included(1)),
        ("S = 'FAN_2 '", Excluded(1)),
        ("C = 'x'", Included(1)),
        ("C = 'xx'", Excluded(1)),
        ("C = ''", Excluded(1)),
        ("C <> 'xx'", Included(1)),
        ("S = C", Excluded(1)),
    ]);
    out.extend(of("x").ask(&[("S = C", Included(1)), ("C = S", Included(1)), ("C <> S", Excluded(1))]));
    out.extend(of("").ask(&[("S = ''", Included(1)), ("S = C", Excluded(1)), ("S = NULL", Excluded(1))]));
    out.extend(of("\u{e9}").ask(&[
        ("S = 'e\\u0301'", Excluded(1)),
        ("S = '\\u00E9'", Included(1)),
        ("S = '\u{e9}'", Included(1)),
    ]));
    out.extend(of("a\0").ask(&[("S = 'a'", Excluded(1)), ("S = 'a\\u0000'", Included(1))]));
    out.extend(
        of("\u{20ac}").with("C", char16(0x20ac)).ask(&[("C = S", Included(1)), ("C = '\u{20ac}'", Included(1))]),
    );
    out
}

fn octets_and_references() -> Vec<Example> {
    let mut out = types().ask(&[
        ("K = 'a/b'", Included(1)),
        ("K = 'A/b'", Excluded(1)),
        ("K <> ''", Included(1)),
        ("K = 'a\\u00002Fb'", Included(1)),
        ("K = 'a\\u002Fb'", Excluded(1)),
        ("K = K", Included(1)),
        ("O = O", Included(1)),
        ("O <> O", Excluded(1)),
        ("O = 0x0102", Included(1)),
        ("O = 0x0201", Excluded(1)),
        ("O = Os[0]", Refused(11, 6)),
        ("Os[0] = O", Excluded(1)),
    ]);
    out.extend(types().with("K", reference("")).ask(&[("K = ''", Included(1)), ("K <> NULL", Included(1))]));
    out.extend(types().with("K", reference("\u{e9}")).ask(&[("K = '\\u00E9'", Included(1))]));
    out
}

fn arrays() -> Vec<Example> {
    types().ask(&[
        ("Us = {3,14}", Included(3)),
        ("Us <> {3,14}", Excluded(3)),
        ("Us = {3,15}", Excluded(3)),
        ("Us = {4,14}", Excluded(2)),
        ("Us <> {4,14}", Included(2)),
        ("Us = {3}", Excluded(1)),
        ("Us <> {3}", Included(1)),
        ("Us = {3,14,NULL}", Excluded(1)),
        ("Us = {}", Excluded(1)),
        ("Us = {NULL,14}", Excluded(2)),
        ("Us = Us", Included(3)),
        ("Us <> Us", Excluded(3)),
        ("Us = Is", Excluded(2)),
        ("Bs = {TRUE,FALSE}", Included(3)),
        ("Is = {-1,2}", Included(3)),
        ("Fs = {.5}", Included(2)),
        ("Fs = Ds", Excluded(1)),
        ("Ds = {.5,1.5}", Included(3)),
        ("Ss = {'a','bc'}", Included(3)),
        ("Cs = {'a'}", Included(2)),
        ("Cs <> {'ab'}", Included(2)),
        ("Os = {0x01,0x0203}", Included(3)),
        ("Ts = {'20051003122233.000000+060'}", Included(2)),
        ("Ks = {'k'}", Included(2)),
    ])
}

fn arrays_with_nulls() -> Vec<Example> {
    let of = |elements: &[Vec<u8>]| types().with("Us", array(UINT64, elements));
    let mut out = of(&[]).ask(&[
        ("Us = {}", Included(1)),
        ("Us <> {}", Excluded(1)),
        ("Us = {NULL}", Excluded(1)),
        ("Us = Is", Excluded(1)),
    ]);
    out.extend(of(&[null(), uint64(14)]).ask(&[
        ("Us = {NULL,14}", Included(3)),
        ("Us = {0,14}", Excluded(2)),
        ("Us = Us", Included(3)),
    ]));
    out.extend(types().with("Us", null()).ask(&[
        ("Us = {}", Excluded(1)),
        ("Us <> {}", Included(1)),
        ("Us = {NULL}", Excluded(1)),
        ("Us = Us", Included(1)),
        ("Us <> Us", Excluded(1)),
        ("Us = Is", Excluded(1)),
        ("Is <> Us", Included(1)),
    ]));
    out.extend(types().with("Us", null()).with("Is", null()).ask(&[("Us = Is", Included(1))]));
    out.extend(of(&[]).with("Is", null()).ask(&[("Us = Is", Excluded(1)), ("Is = Us", Excluded(1))]));
    out
}

fn quantifiers() -> Vec<Example> {
    types().ask(&[
        ("ANY Us = 3", Included(2)),
        ("ANY Us = 14", Included(3)),
        ("ANY Us = 5", Excluded(3)),
        ("ANY Us > 3", Included(3)),
        ("ANY Us < 20", Included(2)),
        ("ANY Us <> 3", Included(3)),
        ("EVERY Us < 20", Included(3)),
        ("EVERY Us = 3", Excluded(3)),
        ("EVERY Us > 3", Excluded(2)),
        ("NOT ANY Us = 5", Included(3)),
        ("NOT ANY Us = 3", Excluded(2)),
        ("NOT EVERY Us > 3", Included(2)),
        ("NOT EVERY Us < 20", Excluded(3)),
        ("ANY Us > U", Included(3)),
        ("EVERY Us > I", Included(3)),
        ("ANY Us = Us[1]", Included(3)),
        ("EVERY Us >= Us[0]", Included(3)),
        ("ANY Ss = 'bc'", Included(3)),
        ("ANY Bs = FALSE", Included(3)),
        ("EVERY Ts = T", Included(2)),
        ("ANY Ds > F", Included(3)),
        ("ANY Os = O", Excluded(3)),
        ("EVERY Ks <> K", Included(2)),
        ("ANY Cs = S", Excluded(2)),
    ])
}

fn quantifiers_on_few_elements() -> Vec<Example> {
    let mut out = types().with("Us", array(UINT64, &[])).ask(&[
        ("ANY Us = 3", Excluded(1)),
        ("EVERY Us = 3", Included(1)),
        ("NOT ANY Us = 3", Included(1)),
        ("NOT EVERY Us = 3", Excluded(1)),
    ]);
    out.extend(types().with("Us", null()).ask(&[
        ("ANY Us = 3", Excluded(1)),
        ("EVERY Us = 3", Excluded(1)),
        ("ANY Us = NULL", Excluded(1)),
        ("EVERY Us <> 3", Excluded(1)),
        ("NOT ANY Us = 3", Included(1)),
        ("NOT EVERY Us = 3", Included(1)),
    ]));
    let mut many = vec![uint64(1); 256];
    many[255] = uint64(2);
    out.extend(types().with("Us", array(UINT64, &many)).ask(&[
        ("ANY Us = 1", Included(2)),
        ("ANY Us = 2", Included(257)),
        ("ANY Us = 3", Excluded(257)),
        ("EVERY Us = 1", Excluded(257)),
        ("EVERY Us < 3", Included(257)),
        ("Us = Us", Included(257)),
    ]));
    out
}

fn quantifiers_and_nulls() -> Vec<Example> {
    let mut out = types().with("Us", array(UINT64, &[null()])).ask(&[
        ("ANY Us <> 3", Included(2)),
        ("EVERY Us <> 3", Included(2)),
        ("ANY Us = NULL", Included(2)),
        ("EVERY Us = NULL", Included(2)),
        ("NOT ANY Us <> NULL", Included(2)),
        ("ANY Us < 3", Excluded(2)),
        ("NOT ANY Us >= 3", Included(2)),
    ]);
    let both = types().with("Us", array(UINT64, &[uint64(3), null()]));
    out.extend(both.with("U", null()).ask(&[
        ("ANY Us = U", Included(3)),
        ("EVERY Us <> U", Excluded(3)),
        ("ANY Us < U", Excluded(3)),
        ("ANY Us = Is[9]", Included(3)),
    ]));
    out.extend(types().with("U", null()).ask(&[("ANY Us = U", Excluded(3)), ("EVERY Us <> U", Included(3))]));
    out
}

fn likes() -> Vec<Example> {
    let of = |s: &str| types().with("S", text(s));
    let mut out = types().ask(&[
        ("S LIKE 'F.*'", Included(6)),
        ("S LIKE 'x'", Excluded(6)),
        ("S LIKE ''", Excluded(6)),
        ("S NOT LIKE 'x'", Included(6)),
        ("C LIKE 'x'", Included(2)),
        ("C LIKE '.'", Included(2)),
        ("C LIKE '..'", Excluded(2)),
        ("C NOT LIKE 'y'", Included(2)),
    ]);
    out.extend(of("").ask(&[("S LIKE ''", Included(1)), ("S LIKE 'x*'", Included(1)), ("S LIKE '.'", Excluded(1))]));
    out.extend(of("\u{1d11e}\u{e9}").ask(&[("S LIKE '..'", Included(3)), ("S LIKE '\\u1D11E.'", Included(3))]));
    out.extend(of("a\0b").ask(&[
        ("S LIKE 'a.b'", Included(4)),
        ("S LIKE 'a\\u000000b'", Included(4)),
        ("S LIKE 'a\\u0000b'", Excluded(4)),
    ]));
    out.extend(of(&"ab".repeat(1_000)).ask(&[("S LIKE '(ab)*'", Included(2_001)), ("S LIKE 'b.*'", Excluded(2_001))]));
    out
}

/// What fails does so on NULL and on an empty array too.
fn failures_without_values() -> Vec<Example> {
    let none = types().with("U", null()).with("T", null()).with("S", null()).with("Us", null());
    none.ask(&[
        ("U LIKE 'x'", Refused(21, 0)),
        ("U = 'x'", Refused(21, 0)),
        ("U = 18446744073709551616", Refused(23, 4)),
        ("T = 'x'", Refused(25, 4)),
        ("S LIKE '('", Refused(24, 7)),
        ("Us[65536] = NULL", Refused(23, 3)),
        ("ANY Us = 'x'", Refused(21, 0)),
    ])
}
