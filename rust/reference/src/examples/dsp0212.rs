//! The examples of DSP0212, 5.2.5 to 5.2.8 and 5.4. Its grammar stands above them: `Dedicated ANY 3` and double-quoted
//! strings are no FQL. The blank in `Operational States` and the broken lines are of the print.

use super::setting::{array, datetime, sint64, text, truth, uint64, Setting};
use super::Example;
use super::Expected::{Excluded, Included, Refused};
use crate::kind::{ARRAY, BOOLEAN, DATETIME, SINT64, STRING, UINT64};

fn metric() -> Setting {
    let uint = |numbers: &[u64]| array(UINT64, &numbers.iter().map(|&n| uint64(n)).collect::<Vec<_>>());
    Setting::new(
        "Metric",
        &[
            ("Started", BOOLEAN, truth(true)),
            ("StartMode", STRING, text("Manual")),
            ("Threshold", UINT64, uint64(30)),
            ("CreationClassName", STRING, text("CIM_Service")),
            ("Dedicated", ARRAY | UINT64, uint(&[3, 14])),
            ("RequestedState", UINT64, uint64(2)),
            ("EnabledState", UINT64, uint64(2)),
            ("SystemTime", DATETIME, datetime("20051003112233.000000+000")),
            ("InstallDate", DATETIME, datetime("20060101000000.000000+000")),
            ("OperationalStates", ARRAY | UINT64, uint(&[2, 5])),
            ("Temperatures", ARRAY | SINT64, array(SINT64, &[sint64(20), sint64(40)])),
            ("MaxTemperature", SINT64, sint64(30)),
        ],
    )
}

pub fn examples() -> Vec<Example> {
    let mut out = of_the_clauses();
    out.extend(of_the_list());
    out.extend(on_other_instances());
    out
}

/// 5.2.5 to 5.2.8.
fn of_the_clauses() -> Vec<Example> {
    let mut out = metric().ask(&[
        ("Started = True", Included(1)),
        ("Metric.Threshold > 25", Included(1)),
        ("Metric. Threshold > 25", Included(1)),
        ("Started = 'True'", Refused(21, 0)),
        ("OperationalStates = {2,5}", Included(3)),
        ("Operational States = {2,5}", Refused(11, 12)),
        ("NOT EVERY Temperatures < MaxTemperature", Included(3)),
        ("EVERY Temperatures < MaxTemperature", Excluded(3)),
    ]);
    let other = Setting::new("Service", &[("Threshold", UINT64, uint64(30))]);
    out.extend(other.ask(&[("Metric.Threshold > 25", Refused(20, 0))]));
    out
}

/// 5.4.
fn of_the_list() -> Vec<Example> {
    metric().ask(&[
        ("Started = TRUE", Included(1)),
        ("Started = TRUE AND StartMode = 'Manual'", Included(2)),
        ("Threshold > 25", Included(1)),
        ("CreationClassName NOT LIKE 'CIM_.*'", Excluded(12)),
        ("Dedicated = {3,14}", Included(3)),
        ("Dedicated ANY 3 AND Dedicated ANY 14", Refused(11, 10)),
        ("ANY Dedicated = 3 AND ANY Dedicated = 14", Included(5)),
        ("Dedicated ANY 3 AND Dedicated NOT ANY 2", Refused(11, 10)),
        ("ANY Dedicated = 3 AND NOT ANY Dedicated = 2", Included(5)),
        ("NOT EVERY Dedicated = 5", Included(2)),
        ("(Started = true and startmode='manual') OR (Started=False and\nStartmode='Automatic')", Excluded(3)),
        ("RequestedState = EnabledState", Included(1)),
        ("SystemTime = \"20051003112233.000000+000\"", Refused(11, 13)),
        ("SystemTime = '20051003112233.000000+000'", Included(1)),
        ("InstallDate > \"20051003112233.000000+000\"", Refused(11, 14)),
        ("InstallDate > '20051003112233.000000+000'", Included(1)),
    ])
}

/// The same queries where the answer is the other one.
fn on_other_instances() -> Vec<Example> {
    let both = "(Started = true and startmode='manual') OR (Started=False and\nStartmode='Automatic')";
    let uint = |numbers: &[u64]| array(UINT64, &numbers.iter().map(|&n| uint64(n)).collect::<Vec<_>>());
    let stopped = metric().with("Started", truth(false));
    let order = metric().with("Dedicated", uint(&[14, 9, 3]));
    let five = metric().with("Dedicated", uint(&[5, 5]));
    let mut out = stopped.with("StartMode", text("Automatic")).ask(&[(both, Included(3))]);
    out.extend(metric().with("StartMode", text("manual")).ask(&[(both, Included(2))]));
    out.extend(
        stopped.ask(&[("Started = TRUE", Excluded(1)), ("Started = TRUE AND StartMode = 'Manual'", Excluded(1))]),
    );
    out.extend(metric().with("Threshold", uint64(25)).ask(&[("Threshold > 25", Excluded(1))]));
    let disk = metric().with("CreationClassName", text("ACME_Disk"));
    out.extend(disk.ask(&[("CreationClassName NOT LIKE 'CIM_.*'", Included(10))]));
    out.extend(order.ask(&[
        ("Dedicated = {3,14}", Excluded(1)),
        ("ANY Dedicated = 3 AND ANY Dedicated = 14", Included(6)),
        ("ANY Dedicated = 3 AND NOT ANY Dedicated = 2", Included(8)),
    ]));
    out.extend(five.ask(&[("NOT EVERY Dedicated = 5", Excluded(3))]));
    out.extend(metric().with("EnabledState", uint64(3)).ask(&[("RequestedState = EnabledState", Excluded(1))]));
    out
}
