//! The plain and the fast side and the scan give what the second program gives, refused or not: a side that does less
//! would be no yardstick.

mod columns;
mod common;
mod printers;
mod records;
mod tables;
