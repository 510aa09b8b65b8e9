//! The rows of the tables, as the documents print them.

use crate::definition::codes::{place_of, Forward, Response, STATES};

/// A row, or rows that differ in the state before alone.
#[derive(Clone, Debug)]
pub struct Row {
    /// The table that the row stands in.
    pub table: &'static str,
    /// The states before that it is for.
    pub before: Vec<u8>,
    /// The RetToSrc it asks for, or nothing where that doesn't matter.
    pub ret_to_src: Option<u8>,
    /// The data forwarded.
    pub forward: Forward,
    /// The answer to Home.
    pub response: Response,
    /// The states after that it gives.
    pub after: Vec<u8>,
    /// Whether DoNotGoToSD forbids it.
    pub not_with_do_not_go_to_sd: bool,
}

/// Table B4.46, for the snoops that forward nothing.
pub const B4_46: &str = "B4.46";
/// Table B4.60, for SnpPreferUniqueFwd outside an exclusive sequence.
pub const B4_60: &str = "B4.60";
/// SnpUnique's table in Q-4.
pub const SNP_UNIQUE: &str = "SnpUnique";
/// SnpCleanInvalid's table in Q-4.
pub const SNP_CLEAN_INVALID: &str = "SnpCleanInvalid";
/// SnpMakeInvalid's table in Q-4.
pub const SNP_MAKE_INVALID: &str = "SnpMakeInvalid";
/// The row of the error rule, which stands in no table of the source.
pub const NDERR_ROW: &str = "NDERR";

/// The tables of document 01, each with the requests it is for.
pub const TABLES: [(&str, &[u8]); 4] = [(B4_46, &[1, 2, 4, 21]), ("B4.57", &[18, 20]), ("B4.59", &[22]), (B4_60, &[22])];

/// The rows of document 01: table, states before, RetToSrc, forward, response, states after, and what forbids the row.
pub const PRINTED: &str = "
    B4.46 | I     | X | -              | SnpResp_I                  | I
    B4.46 | UC    | X | -              | SnpResp_SC                 | SC I
    B4.46 | UC    | X | -              | SnpRespData_SC             | SC I
    B4.46 | UC    | X | -              | SnpResp_I                  | I
    B4.46 | UC    | X | -              | SnpRespData_I              | I
    B4.46 | UCE   | X | -              | SnpResp_I                  | I
    B4.46 | UD SD | X | -              | SnpRespData_SD             | SD   | DoNotGoToSD
    B4.46 | UD SD | X | -              | SnpRespData_SC_PD          | SC I
    B4.46 | UD SD | X | -              | SnpRespData_I_PD           | I
    B4.46 | UDP   | X | -              | SnpRespDataPtl_I_PD        | I
    B4.46 | SC    | 0 | -              | SnpResp_SC                 | SC I
    B4.46 | SC    | 0 | -              | SnpResp_I                  | I
    B4.46 | SC    | 1 | -              | SnpRespData_SC             | SC I
    B4.46 | SC    | 1 | -              | SnpRespData_I              | I
    B4.57 | I UCE | X | -              | SnpResp_I                  | I
    B4.57 | UDP   | X | -              | SnpRespDataPtl_I_PD        | I
    B4.57 | UC SC | 0 | CompData_SC    | SnpResp_SC_Fwded_SC        | SC I
    B4.57 | UC SC | 1 | CompData_SC    | SnpRespData_SC_Fwded_SC    | SC I
    B4.57 | UC SC | 0 | CompData_SC    | SnpResp_I_Fwded_SC         | I
    B4.57 | UC SC | 1 | CompData_SC    | SnpRespData_I_Fwded_SC     | I
    B4.57 | UD SD | 0 | CompData_SC    | SnpResp_SD_Fwded_SC        | SD   | DoNotGoToSD
    B4.57 | UD SD | 1 | CompData_SC    | SnpRespData_SD_Fwded_SC    | SD   | DoNotGoToSD
    B4.57 | UD SD | 0 | CompData_SD_PD | SnpResp_SC_Fwded_SD_PD     | SC I
    B4.57 | UD SD | 1 | CompData_SD_PD | SnpRespData_SC_Fwded_SD_PD | SC I
    B4.57 | UD SD | 0 | CompData_SD_PD | SnpResp_I_Fwded_SD_PD      | I
    B4.57 | UD SD | 1 | CompData_SD_PD | SnpRespData_I_Fwded_SD_PD  | I
    B4.57 | UD SD | X | CompData_SC    | SnpRespData_SC_PD_Fwded_SC | SC I
    B4.57 | UD SD | X | CompData_SC    | SnpRespData_I_PD_Fwded_SC  | I
    B4.59 | I UCE | X | -              | SnpResp_I                  | I
    B4.59 | UDP   | X | -              | SnpRespDataPtl_I_PD        | I
    B4.59 | UC SC | 0 | CompData_SC    | SnpResp_SC_Fwded_SC        | SC
    B4.59 | UC SC | 1 | CompData_SC    | SnpRespData_SC_Fwded_SC    | SC
    B4.59 | UD SD | 0 | CompData_SC    | SnpResp_SD_Fwded_SC        | SD   | DoNotGoToSD
    B4.59 | UD SD | 1 | CompData_SC    | SnpRespData_SD_Fwded_SC    | SD   | DoNotGoToSD
    B4.59 | UD SD | X | CompData_SC    | SnpRespData_SC_PD_Fwded_SC | SC
    B4.60 | I UCE | X | -              | SnpResp_I                  | I
    B4.60 | UDP   | X | -              | SnpRespDataPtl_I_PD        | I
    B4.60 | UC SC | X | CompData_UC    | SnpResp_I_Fwded_UC         | I
    B4.60 | UD SD | X | CompData_UD_PD | SnpResp_I_Fwded_UD_PD      | I
    B4.60 | UD SD | X | -              | SnpRespData_I_PD           | I
    NDERR | I UC UCE UD UDP SC SD | X | - | SnpResp_I               | I
";

/// The rows of Q-4 in the same columns, each snoop's in a table of its name.
pub const PRINTED_BY_Q4: &str = "
    SnpUnique       | I UCE | X | - | SnpResp_I           | I
    SnpUnique       | UC    | X | - | SnpResp_I           | I
    SnpUnique       | UC    | X | - | SnpRespData_I       | I
    SnpUnique       | UD SD | X | - | SnpRespData_I_PD    | I
    SnpUnique       | UDP   | X | - | SnpRespDataPtl_I_PD | I
    SnpUnique       | SC    | 0 | - | SnpResp_I           | I
    SnpUnique       | SC    | 1 | - | SnpRespData_I       | I
    SnpCleanInvalid | I UCE | X | - | SnpResp_I           | I
    SnpCleanInvalid | UD SD | X | - | SnpRespData_I_PD    | I
    SnpCleanInvalid | UDP   | X | - | SnpRespDataPtl_I_PD | I
    SnpCleanInvalid | UC SC | X | - | SnpResp_I           | I
    SnpMakeInvalid  | I UC UCE UD UDP SC SD | X | - | SnpResp_I | I
";

/// The rows that a text prints, a line each.
pub fn rows(printed: &'static str) -> Vec<Row> {
    let lines = printed.lines().filter(|line| !line.trim().is_empty());
    lines.map(|line| row(line).unwrap_or_else(|| panic!("no row: {line}"))).collect()
}

/// The row that a line prints.
fn row(line: &'static str) -> Option<Row> {
    let columns: Vec<&str> = line.split('|').map(str::trim).collect();
    let (columns, forbidden) = columns.split_at(6.min(columns.len()));
    let [table, before, ret_to_src, forward, response, after] = columns else { return None };
    let states = |names: &str| names.split(' ').map(|name| place_of(&STATES, name)).collect::<Option<Vec<u8>>>();
    Some(Row {
        table,
        before: states(before)?,
        ret_to_src: match *ret_to_src {
            "X" => None,
            "0" => Some(0),
            "1" => Some(1),
            _ => return None,
        },
        forward: Forward::named(forward)?,
        response: Response::named(response)?,
        after: states(after)?,
        not_with_do_not_go_to_sd: match forbidden {
            [] => false,
            ["DoNotGoToSD"] => true,
            _ => return None,
        },
    })
}

#[cfg(test)]
mod tests {
    use super::*;

    /// The tables have the number of rows that the source prints, each state before being a row of its own.
    #[test]
    fn numbers_of_rows() {
        let of_table = |rows: Vec<Row>, table: &str| rows.into_iter().filter(|row| row.table == table).collect::<Vec<Row>>();
        let count = |printed: &'static str, table: &str| of_table(rows(printed), table).iter().map(|row| row.before.len()).sum::<usize>();
        assert_eq!([B4_46, "B4.57", "B4.59", B4_60, NDERR_ROW].map(|table| count(PRINTED, table)), [17, 27, 13, 9, 7]);
        assert_eq!([SNP_UNIQUE, SNP_CLEAN_INVALID, SNP_MAKE_INVALID].map(|table| count(PRINTED_BY_Q4, table)), [9, 7, 7]);
    }

    /// A row's response names the state of the data that the row forwards.
    #[test]
    fn responses_name_the_forward() {
        for row in rows(PRINTED).into_iter().chain(rows(PRINTED_BY_Q4)) {
            assert_eq!(row.response.fwd_state, row.forward.resp);
        }
    }
}
