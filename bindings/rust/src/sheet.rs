use crate::{answer, raw, Clause, Refusal, Table, MOST_CLAUSES, MOST_NODES};

/// What a sheet holds: a list and its number of marks, or a table.
#[derive(Clone, Debug, PartialEq, Eq)]
pub enum Sheet {
    Dnf(u16, Vec<Clause>),
    Cnf(u16, Vec<Clause>),
    Table(Table),
}

impl Sheet {
    /// Reads a sheet's bytes.
    pub fn read(bytes: &[u8]) -> Result<Sheet, Refusal> {
        let (mut clauses, mut nodes) = (vec![0; 2 * MOST_CLAUSES], vec![0; 3 * MOST_NODES]);
        let (list, list_len) = (clauses.as_mut_ptr(), clauses.len());
        let (table, table_len) = (nodes.as_mut_ptr(), nodes.len());
        let found = answer(|reply, len| unsafe {
            raw::collartug_read_sheet(bytes.as_ptr(), bytes.len(), list, list_len, table, table_len, reply, len)
        })?;
        let (n, count) = (found[1] as u16, found[2] as usize);
        let clauses = || clauses.chunks_exact(2).take(count).map(|pair| Clause { fixed: pair[0], values: pair[1] }).collect();
        Ok(match found[0] {
            1 => Sheet::Dnf(n, clauses()),
            2 => Sheet::Cnf(n, clauses()),
            _ => Sheet::Table(Table::read(n, count, nodes)),
        })
    }

    /// The table of what the sheet holds.
    pub fn table(self, room: usize) -> Result<Table, Refusal> {
        match self {
            Sheet::Dnf(n, clauses) => Table::from_dnf(n, &clauses, room),
            Sheet::Cnf(n, clauses) => Table::from_cnf(n, &clauses, room),
            Sheet::Table(table) => Ok(table),
        }
    }
}
