//! Examples that F&O publishes in its sections 10.4 to 10.8, as far as they are in scope. Where the paper's example
//! leans on an implicit zone of -05:00, the zone is written out here.

mod common;
use common::{all, answer};

#[test]
fn section_10_4_order() {
    all(&[
        ("compare|dateTime|2002-04-02T12:00:00-01:00|dateTime|2002-04-02T17:00:00+04:00", "eq"),
        ("compare|dateTime|2002-04-02T12:00:00-05:00|dateTime|2002-04-02T23:00:00+06:00", "eq"),
        ("compare|dateTime|2002-04-02T12:00:00|dateTime|2002-04-02T17:00:00", "lt"),
        ("compare|dateTime|2002-04-02T12:00:00|dateTime|2002-04-02T12:00:00", "eq"),
        ("compare|dateTime|2002-04-02T23:00:00-04:00|dateTime|2002-04-03T02:00:00-01:00", "eq"),
        ("compare|dateTime|1999-12-31T24:00:00|dateTime|2000-01-01T00:00:00", "eq"),
        ("compare|dateTime|2005-04-04T24:00:00|dateTime|2005-04-04T00:00:00", "gt"),
        ("compare|date|2004-12-25Z|date|2004-12-25+07:00", "gt"),
        ("compare|date|2004-12-25-12:00|date|2004-12-26+12:00", "eq"),
        ("compare|date|2004-12-25Z|date|2004-12-25-05:00", "lt"),
        ("compare|time|08:00:00+09:00|time|17:00:00-06:00", "lt"),
        ("compare|time|21:30:00+10:30|time|06:00:00-05:00", "eq"),
        ("compare|time|24:00:00+01:00|time|00:00:00+01:00", "eq"),
        ("compare|time|12:00:00-05:00|time|23:00:00+06:00", "eq"),
        ("compare|time|11:00:00-05:00|time|17:00:00Z", "lt"),
        ("compare|time|23:59:59|time|24:00:00", "gt"),
        ("compare|ym|P1Y|ym|P12M", "eq"),
        ("compare|dt|PT24H|dt|P1D", "eq"),
    ]);
}

fn component(call: &str, name: &str) -> String {
    let all = answer(&format!("components|{call}"));
    let pair = all.split(' ').find(|pair| pair.starts_with(&format!("{name}="))).unwrap_or_else(|| panic!("{call}: {all}"));
    pair.split('=').nth(1).unwrap().to_string()
}

#[test]
fn section_10_5_components_of_durations() {
    for (call, name, expected) in [
        ("ym|P20Y15M", "years", "21"),
        ("ym|-P15M", "years", "-1"),
        ("dt|-P2DT15H", "years", "0"),
        ("ym|P20Y15M", "months", "3"),
        ("ym|-P20Y18M", "months", "-6"),
        ("dt|-P2DT15H0M0S", "months", "0"),
        ("dt|P3DT10H", "days", "3"),
        ("dt|P3DT55H", "days", "5"),
        ("ym|P3Y5M", "days", "0"),
        ("dt|P3DT10H", "hours", "10"),
        ("dt|P3DT12H32M12S", "hours", "12"),
        ("dt|PT123H", "hours", "3"),
        ("dt|-P3DT10H", "hours", "-10"),
        ("dt|P3DT10H", "minutes", "0"),
        ("dt|-P5DT12H30M", "minutes", "-30"),
        ("dt|P3DT10H12.5S", "seconds", "12.5"),
        ("dt|-PT256S", "seconds", "-16"),
    ] {
        assert_eq!(component(call, name), expected, "{name} of {call}");
    }
}

#[test]
fn section_10_5_components_of_dates_and_times() {
    for (call, name, expected) in [
        ("dateTime|1999-05-31T13:20:00-05:00", "year", "1999"),
        ("dateTime|1999-05-31T21:30:00-05:00", "year", "1999"),
        ("dateTime|1999-12-31T19:20:00", "year", "1999"),
        ("dateTime|1999-12-31T24:00:00", "year", "2000"),
        ("dateTime|1999-05-31T13:20:00-05:00", "month", "5"),
        ("dateTime|1999-12-31T19:20:00-05:00", "month", "12"),
        ("dateTime|1999-05-31T13:20:00-05:00", "day", "31"),
        ("dateTime|1999-12-31T20:00:00-05:00", "day", "31"),
        ("dateTime|1999-05-31T08:20:00-05:00", "hours", "8"),
        ("dateTime|1999-12-31T21:20:00-05:00", "hours", "21"),
        ("dateTime|1999-12-31T12:00:00", "hours", "12"),
        ("dateTime|1999-12-31T24:00:00", "hours", "0"),
        ("dateTime|1999-05-31T13:20:00-05:00", "minutes", "20"),
        ("dateTime|1999-05-31T13:30:00+05:30", "minutes", "30"),
        ("dateTime|1999-05-31T13:20:00-05:00", "seconds", "0"),
        ("dateTime|1999-05-31T13:20:00-05:00", "zone", "-300"),
        ("dateTime|2000-06-12T13:20:00Z", "zone", "0"),
        ("dateTime|2004-08-27T00:00:00", "zone", "none"),
        ("date|1999-05-31", "year", "1999"),
        ("date|2000-01-01+05:00", "year", "2000"),
        ("date|1999-05-31-05:00", "month", "5"),
        ("date|2000-01-01+05:00", "month", "1"),
        ("date|1999-05-31-05:00", "day", "31"),
        ("date|2000-01-01+05:00", "day", "1"),
        ("date|1999-05-31-05:00", "zone", "-300"),
        ("date|2000-06-12Z", "zone", "0"),
        ("time|11:23:00", "hours", "11"),
        ("time|21:23:00", "hours", "21"),
        ("time|01:23:00+05:00", "hours", "1"),
        ("time|24:00:00", "hours", "0"),
        ("time|13:00:00Z", "minutes", "0"),
        ("time|13:20:10.5", "seconds", "10.5"),
        ("time|13:20:00-05:00", "zone", "-300"),
        ("time|13:20:00", "zone", "none"),
    ] {
        assert_eq!(component(call, name), expected, "{name} of {call}");
    }
}

#[test]
fn section_10_6_arithmetic_on_durations() {
    all(&[
        ("add|ym|P2Y11M|ym|P3Y3M", "P6Y2M"),
        ("subtract|ym|P2Y11M|ym|P3Y3M", "-P4M"),
        ("add|dt|P2DT12H5M|dt|P5DT12H", "P8DT5M"),
        ("subtract|dt|P2DT12H|dt|P1DT10H30M", "P1DT1H30M"),
    ]);
}

#[test]
fn section_10_7_adjustment() {
    all(&[
        ("adjust|dateTime|2002-03-07T10:00:00|dt|-PT5H", "2002-03-07T10:00:00-05:00"),
        ("adjust|dateTime|2002-03-07T10:00:00-07:00|dt|-PT5H", "2002-03-07T12:00:00-05:00"),
        ("adjust|dateTime|2002-03-07T10:00:00|dt|-PT10H", "2002-03-07T10:00:00-10:00"),
        ("adjust|dateTime|2002-03-07T10:00:00-07:00|dt|-PT10H", "2002-03-07T07:00:00-10:00"),
        ("adjust|dateTime|2002-03-07T10:00:00-07:00|dt|PT10H", "2002-03-08T03:00:00+10:00"),
        ("adjust|dateTime|2002-03-07T00:00:00+01:00|dt|-PT8H", "2002-03-06T15:00:00-08:00"),
        ("unzone|dateTime|2002-03-07T10:00:00", "2002-03-07T10:00:00"),
        ("unzone|dateTime|2002-03-07T10:00:00-07:00", "2002-03-07T10:00:00"),
        ("adjust|date|2002-03-07|dt|-PT5H", "2002-03-07-05:00"),
        ("adjust|date|2002-03-07-07:00|dt|-PT5H", "2002-03-07-05:00"),
        ("adjust|date|2002-03-07|dt|-PT10H", "2002-03-07-10:00"),
        ("adjust|date|2002-03-07-07:00|dt|-PT10H", "2002-03-06-10:00"),
        ("unzone|date|2002-03-07", "2002-03-07"),
        ("unzone|date|2002-03-07-07:00", "2002-03-07"),
        ("adjust|time|10:00:00|dt|-PT5H", "10:00:00-05:00"),
        ("adjust|time|10:00:00-07:00|dt|-PT5H", "12:00:00-05:00"),
        ("adjust|time|10:00:00|dt|-PT10H", "10:00:00-10:00"),
        ("adjust|time|10:00:00-07:00|dt|-PT10H", "07:00:00-10:00"),
        ("unzone|time|10:00:00", "10:00:00"),
        ("unzone|time|10:00:00-07:00", "10:00:00"),
        ("adjust|time|10:00:00-07:00|dt|PT10H", "03:00:00+10:00"),
    ]);
}

#[test]
fn section_10_8_differences() {
    all(&[
        ("subtract|dateTime|2000-10-30T06:12:00-05:00|dateTime|1999-11-28T09:00:00Z", "P337DT2H12M"),
        ("subtract|date|2000-10-30|date|1999-11-28", "P337D"),
        ("subtract|date|2000-10-30+05:00|date|1999-11-28Z", "P336DT19H"),
        ("subtract|date|2000-10-15-05:00|date|2000-10-10+02:00", "P5DT7H"),
        ("subtract|time|11:12:00Z|time|04:00:00-05:00", "PT2H12M"),
        ("subtract|time|11:00:00-05:00|time|21:30:00+05:30", "PT0S"),
        ("subtract|time|17:00:00-06:00|time|08:00:00+09:00", "P1D"),
        ("subtract|time|24:00:00|time|23:59:59", "-PT23H59M59S"),
    ]);
}

#[test]
fn section_10_8_moved_by_durations() {
    all(&[
        ("add|dateTime|2000-10-30T11:12:00|ym|P1Y2M", "2001-12-30T11:12:00"),
        ("add|dateTime|2000-10-30T11:12:00|dt|P3DT1H15M", "2000-11-02T12:27:00"),
        ("subtract|dateTime|2000-10-30T11:12:00|ym|P1Y2M", "1999-08-30T11:12:00"),
        ("subtract|dateTime|2000-10-30T11:12:00|dt|P3DT1H15M", "2000-10-27T09:57:00"),
        ("add|date|2000-10-30|ym|P1Y2M", "2001-12-30"),
        ("add|date|2004-10-30Z|dt|P2DT2H30M0S", "2004-11-01Z"),
        ("subtract|date|2000-10-30|ym|P1Y2M", "1999-08-30"),
        ("subtract|date|2000-02-29Z|ym|P1Y", "1999-02-28Z"),
        ("subtract|date|2000-10-31-05:00|ym|P1Y1M", "1999-09-30-05:00"),
        ("subtract|date|2000-10-30|dt|P3DT1H15M", "2000-10-26"),
        ("add|time|11:12:00|dt|P3DT1H15M", "12:27:00"),
        ("add|time|23:12:00+03:00|dt|P1DT3H15M", "02:27:00+03:00"),
        ("subtract|time|11:12:00|dt|P3DT1H15M", "09:57:00"),
        ("subtract|time|08:20:00-05:00|dt|P23DT10H10M", "22:10:00-05:00"),
    ]);
}
