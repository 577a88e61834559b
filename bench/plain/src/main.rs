// The plain counterparts of the program: they read lines, split them at commas and keep all in a `HashMap`. No quotes, no refusals, no
// bound on memory. `count` counts the second column, as `count` of the program does. `group` counts the rows of each value of the second
// column and sums the third. `join` looks up the customer of each order, counts the orders of each region and sums their amounts.

use std::collections::HashMap;
use std::fs::File;
use std::io::{self, BufRead, BufReader, BufWriter, Write};

#[derive(Default)]
struct Group {
    count: u64,
    sum: i128,
}

fn main() -> io::Result<()> {
    let args: Vec<String> = std::env::args().skip(1).collect();
    let args: Vec<&str> = args.iter().map(String::as_str).collect();
    match args[..] {
        ["count", table] => count(table),
        ["group", table] => group(table),
        ["join", orders, customers] => join(orders, customers),
        _ => Err(io::Error::other(
            "usage: plain count TABLE | group TABLE | join ORDERS CUSTOMERS",
        )),
    }
}

fn count(table: &str) -> io::Result<()> {
    let mut counts: HashMap<String, u64> = HashMap::new();
    for line in records(table)? {
        let line = line?;
        change(&mut counts, text(line.split(',').nth(1)), |count| {
            *count += 1
        });
    }
    let mut sorted: Vec<_> = counts.into_iter().collect();
    sorted.sort();
    let mut out = BufWriter::new(io::stdout().lock());
    for (value, count) in sorted {
        writeln!(out, "{value},{count}")?;
    }
    out.flush()
}

fn group(table: &str) -> io::Result<()> {
    let mut groups = HashMap::new();
    for line in records(table)? {
        let line = line?;
        let mut fields = line.split(',').skip(1);
        let value = text(fields.next());
        add(&mut groups, value, number(fields.next())?);
    }
    write_groups("value,count,sum(amount)", groups)
}

fn join(orders: &str, customers: &str) -> io::Result<()> {
    let mut regions: HashMap<i64, Vec<String>> = HashMap::new();
    for line in records(customers)? {
        let line = line?;
        let mut fields = line.split(',');
        let id = number(fields.next())?;
        regions
            .entry(id)
            .or_default()
            .push(text(fields.next()).to_string());
    }
    let mut groups = HashMap::new();
    for line in records(orders)? {
        let line = line?;
        let mut fields = line.split(',').skip(1);
        let customer = number(fields.next())?;
        let amount = number(fields.next())?;
        for region in regions.get(&customer).into_iter().flatten() {
            add(&mut groups, region, amount);
        }
    }
    write_groups("right.region,count,sum(left.amount)", groups)
}

/// The lines behind the header.
fn records(path: &str) -> io::Result<impl Iterator<Item = io::Result<String>>> {
    Ok(BufReader::new(File::open(path)?).lines().skip(1))
}

fn text(field: Option<&str>) -> &str {
    field.unwrap_or("")
}

fn number(field: Option<&str>) -> io::Result<i64> {
    text(field).parse().map_err(io::Error::other)
}

fn add(groups: &mut HashMap<String, Group>, key: &str, amount: i64) {
    change(groups, key, |group| {
        group.count += 1;
        group.sum += i128::from(amount);
    });
}

/// Changes the value of a key. A new key is copied and gets the default first.
fn change<V: Default>(values: &mut HashMap<String, V>, key: &str, how: impl Fn(&mut V)) {
    match values.get_mut(key) {
        Some(value) => how(value),
        None => how(values.entry(key.to_string()).or_default()),
    }
}

/// Writes the groups in the order of the map.
fn write_groups(header: &str, groups: HashMap<String, Group>) -> io::Result<()> {
    let mut out = BufWriter::new(io::stdout().lock());
    writeln!(out, "{header}")?;
    for (key, group) in groups {
        writeln!(out, "{key},{},{}", group.count, group.sum)?;
    }
    out.flush()
}
