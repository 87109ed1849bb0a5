//! Rejection codes.
//!
//! Document 01, "Operations": "Rejection code of a test. 107 if the number
//! isn't a Table 5-1 test listed here (101 and 102 aren't). Otherwise the code
//! from A5.24". Document 02, 2: "tests that requests add count as listed in
//! document 01, their A5.24 codes included".

/// Table A5-21: the codes of A5.24 with their names, in the table's order.
pub const REJECTION_CODES: [(u32, &str); 43] = [
    (6001, "Invalid file naming convention"),
    (6002, "Invalid file format"),
    (6003, "Invalid record production sequence"),
    (6004, "Failed mandatory field logic"),
    (6005, "Failed conditional field logic"),
    (6006, "Invalid standard code"),
    (6007, "Non-unique record ID"),
    (6008, "Invalid parent ID"),
    (6009, "Invalid retailer ID"),
    (6010, "Invalid distributor ID"),
    (6011, "Invalid date logic"),
    (6012, "Future dates found"),
    (6014, "Misalignment of current billing period and tariff bill period(s)"),
    (6015, "Failed cancel indicator logic"),
    (6016, "Tariff bill period overlap (within tariff bill file)"),
    (6017, "Misalignment of usage period(s) with tariff bill period"),
    (6018, "Usage period overlap (within a tariff bill period)"),
    (6019, "Usage period gap (within a tariff bill period)"),
    (6020, "Misalignment of demand period(s) with tariff bill period"),
    (6021, "Demand period overlap (within a tariff bill period)"),
    (6022, "Demand period gap (within a tariff bill period)"),
    (6023, "Misalignment of charge period(s) with tariff bill period"),
    (6024, "Charge period overlap (within a tariff bill period)"),
    (6025, "Charge period gap (within a tariff bill period)"),
    (6026, "Invalid date created (file header)"),
    (6028, "Invalid usage total (Site Header record)"),
    (6029, "Invalid charge total (Site Header record)"),
    (6031, "Invalid usage total (Tariff Bill Period Header record)"),
    (6032, "Invalid charge total (Tariff Bill Period Header record)"),
    (6033, "Invalid file record count (File Trailer record)"),
    (6034, "Invalid charge total (File Trailer record)"),
    (6035, "Missing billing Demand Determinant record"),
    (6036, "Missing Usage Determinant record"),
    (6038, "Invalid calculated values"),
    (6040, "Invalid child record values"),
    (6041, "Invalid data type"),
    (6042, "Tariff bill period gap (within current billing period)"),
    (6043, "Failed cancel reference logic"),
    (6044, "Failed cancel value logic"),
    (6045, "Failed current billing period cancel logic"),
    (6046, "Misalignment of usage/charge period alignment"),
    (6047, "Failed current billing period content"),
    (6048, "Failed tariff bill file reference ID"),
];

/// The refusal for a number that isn't a test of Table 5-1 that documents 01
/// and 02 list.
pub const NOT_A_TEST: u32 = 107;

/// The A5.24 code of a test of Table 5-1 that documents 01 and 02 list, matched
/// by the test's check and the code's name. None for any other number.
pub fn rejection_code(test: u64) -> Option<u32> {
    let code = match test {
        2 => 6002,     // file format
        3 => 6041,     // data type
        4 => 6003,     // record production sequence
        5 => 6004,     // mandatory field logic
        6 => 6005,     // conditional field logic
        7 => 6006,     // standard codes
        8 | 9 => 6007, // unique record IDs, with previous files and within the file
        10 => 6008,    // parent ID
        11 => 6009,    // retailer ID
        12 => 6010,    // distributor ID
        14 => 6011,    // date logic
        17 => 6015,    // cancel indicator logic
        18 => 6016,    // tariff bill period overlap
        29 => 6028,    // Site Header usage total
        30 => 6029,    // Site Header charge total
        31 => 6031,    // Tariff Bill Period Header usage total
        32 => 6032,    // Tariff Bill Period Header charge total
        33 => 6033,    // File Trailer record count
        34 => 6034,    // File Trailer charge total
        38 => 6040,    // child record values
        39 => 6043,    // cancel cross-reference logic
        40 => 6044,    // cancel value logic
        _ => return None,
    };
    Some(code)
}

#[cfg(test)]
mod tests {
    use super::*;

    /// "2 is 6002, 3 is 6041, 7 is 6006, 18 is 6016, 29 to 32 are 6028, 6029,
    /// 6031, 6032."
    #[test]
    fn codes_given_by_document_01() {
        let given = [
            (2, 6002),
            (3, 6041),
            (7, 6006),
            (18, 6016),
            (29, 6028),
            (30, 6029),
            (31, 6031),
            (32, 6032),
        ];
        for (test, code) in given {
            assert_eq!(rejection_code(test), Some(code));
        }
        assert_eq!(rejection_code(101), None);
        assert_eq!(rejection_code(102), None);
    }

    /// Test 6 of Table 5-1 checks "Conditional field logic".
    #[test]
    fn code_of_test_6() {
        let code = rejection_code(6).unwrap();
        let name = REJECTION_CODES.iter().find(|row| row.0 == code).unwrap().1;
        assert_eq!((code, name), (6005, "Failed conditional field logic"));
    }

    /// "tests 2 to 5, 7 to 12, 14, 17, 18, 29 to 34 and 38 to 40", and 6, which
    /// document 02 adds.
    #[test]
    fn tests_listed_by_documents_01_and_02() {
        let listed =
            |test: u64| matches!(test, 2..=5 | 6 | 7..=12 | 14 | 17 | 18 | 29..=34 | 38..=40);
        for test in 0..200 {
            assert_eq!(rejection_code(test).is_some(), listed(test), "{test}");
        }
        assert_eq!(rejection_code(u64::MAX), None);
    }

    #[test]
    fn codes_stand_in_the_table() {
        assert!(REJECTION_CODES.windows(2).all(|pair| pair[0].0 < pair[1].0));
        let codes = (0..200).filter_map(rejection_code);
        for code in codes {
            assert!(REJECTION_CODES.iter().any(|row| row.0 == code), "{code}");
        }
    }
}
