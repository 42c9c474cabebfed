//! `course hall`: a hall of one's own by seed, a worksheet, and apart the solution.

mod network;
mod orders;
pub mod worksheet;

use crate::arguments::{Arguments, Choice, Command};
use crate::folder::{cannot_write, Folder, ORDERS, TABLE};
use crate::mark::slips::Expected;
use crate::session::{remark, Session};
use crate::status::{Outcome, Status};
use halls::rng::Rng;
use halls::tables::table_text;
use network::Network;
use orders::Orders;
use plain::columns::lines;
use plain::orders::read_order;
use plain::registry::Registry;
use plain::slips::{Blocking, Slips};
use std::fs;
use std::path::{Path, PathBuf};

pub const COMMAND: Command = Command {
    name: "hall",
    usage: "--seed S --out FOLDER",
    about: "a hall with orders that reach the usual refusals, a worksheet and, apart, the solution",
    help: "\
Makes a bottling hall: the same seed gives the same hall. Into FOLDER, which is made, go table.txt, orders.txt and
worksheet.txt, the queues in words and a row to fill in for each order; into FOLDER/solution go answers.txt, the right
rows as `course mark` reads them, and explained.txt. The orders reach 0, 10 to 17 and 20 to 23; then about half of the
flows are released, and what was turned away and what was released is registered again. Last come two changes of held
flows, one that there is no room for and one that is done. Two halls of three have a long fibre run: a link with a fixed
delay; one in three has a maintenance port: a link with a best-effort frame, without which a row would be another. Files
that exist aren't overwritten.

Exit status: 0; 1 a file that can't be written; 2 usage.",
    words: 0..=0,
    choices: &[
        Choice::with("--seed", "S"),
        Choice::with("--out", "FOLDER"),
    ],
    run: hall,
};

/// A made hall's texts, and how many orders belong to exercise one.
pub struct Made {
    pub table: Vec<u8>,
    pub orders: Vec<u8>,
    pub first_part: usize,
}

/// The hall of a seed: the first drawn whose orders reach every wanted answer. Where it has a port, laptops must matter to a
/// row; until they do, ones with a port are drawn.
pub fn make(seed: u64) -> Made {
    let mut index = 0;
    let mut wants_port = false;
    loop {
        let mut rng = Rng::new(seed, index);
        let mut network = Network::random(&mut rng);
        network.plug_in(&mut Rng::new(!seed, index));
        index += 1;
        if wants_port && !network.has_port() {
            continue;
        }
        let Some(orders) = Orders::random(&mut rng, &network) else {
            continue;
        };
        if !network.has_port() || laptops_matter(&network, &orders) {
            return Made {
                table: table_text(&network.queues),
                orders: orders.text.concat(),
                first_part: orders.first_part,
            };
        }
        wants_port = true;
    }
}

/// Whether somebody who leaves best-effort frames out fills in another row.
fn laptops_matter(network: &Network, orders: &Orders) -> bool {
    let left_out = Slips {
        blocking: Blocking::LeftOut,
        ..Slips::NONE
    };
    let mut registry = Registry::over(network.queues.clone());
    orders.text.iter().any(|line| {
        let order = read_order(&lines(line)[0]);
        let row = |by: &Registry| {
            let (answer, work) = by.answer_to(order.as_ref().ok()?);
            Some(Expected::of(&answer, work.as_ref(), &registry))
        };
        let differ = row(&registry) != row(&registry.by(left_out));
        registry.step(order);
        differ
    })
}

fn hall(arguments: &Arguments) -> Result<Outcome, Outcome> {
    let missing = || Outcome::failed(Status::Usage, COMMAND.usage_line());
    let seed = arguments.number("--seed")?.ok_or_else(missing)?;
    let out = PathBuf::from(arguments.value("--out").ok_or_else(missing)?);
    let made = make(seed);
    let folder = Folder {
        path: out.clone(),
        table: made.table,
        orders: made.orders,
    };
    let session = Session::run(&folder)?;
    let sheet = worksheet::worksheet(&folder, seed, made.first_part)?;
    let files = [
        (TABLE, folder.table.clone()),
        (ORDERS, folder.orders.clone()),
        ("worksheet.txt", sheet.into_bytes()),
        (
            "solution/answers.txt",
            worksheet::answers(&session).into_bytes(),
        ),
        (
            "solution/explained.txt",
            worksheet::explanation(&folder)?.into_bytes(),
        ),
    ];
    let mut printed = String::new();
    for (name, content) in &files {
        let path = out.join(name);
        write_new(&path, content)?;
        printed += &format!("{}\n", path.display());
    }
    Ok(Outcome::fine(printed).with_remark(remark()))
}

/// Writes a file that doesn't exist yet, and the folders above it.
fn write_new(path: &Path, content: &[u8]) -> Result<(), Outcome> {
    let written = || {
        if let Some(folder) = path.parent() {
            fs::create_dir_all(folder)?;
        }
        let mut file = fs::OpenOptions::new()
            .write(true)
            .create_new(true)
            .open(path)?;
        std::io::Write::write_all(&mut file, content)
    };
    written().map_err(|error| cannot_write(path, &error))
}
