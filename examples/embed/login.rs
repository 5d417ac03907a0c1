//! Lays out the login form, drags its divider, and prints the frames and what moved.
mod layout;

use layout::{Attribute, Frac, Session};
use std::collections::BTreeMap;
use std::io::{self, BufRead};

fn print_frames(session: &mut Session, names: &BTreeMap<u32, String>, views: &[u32]) {
    for view in views {
        let (Some(name), Some(frame)) = (names.get(view), session.frame(*view)) else { continue };
        let [left, top, width, height] = frame;
        println!("  {name} {left} {top} {width} {height}");
    }
}

fn print_moved(session: &mut Session, names: &BTreeMap<u32, String>) {
    let moved = session.moved().unwrap_or_default();
    print_frames(session, names, &moved);
}

fn main() -> Result<(), layout::Fault> {
    let mut session = Session::new()?;
    let mut names = BTreeMap::new();
    for line in io::stdin().lock().lines().map_while(Result::ok) {
        session.line(&line)?;
        if let Some(name) = line.strip_prefix("view ") {
            names.extend(session.view(name).map(|view| (view, name.to_string())));
        }
    }
    println!("the form, 375 by 667");
    print_frames(&mut session, &names, &names.keys().copied().collect::<Vec<_>>());
    session.suggest("userLabel", Attribute::Width, Frac::from(120))?;
    println!("the labels' divider, dragged to 120");
    print_moved(&mut session, &names);
    session.suggest("userLabel", Attribute::Width, Frac { num: 501, den: 2 })?;
    println!("dragged past its limit");
    print_moved(&mut session, &names);
    session.resize(Frac::from(400), Frac::from(667))?;
    println!("a window of 400 by 667");
    print_moved(&mut session, &names);
    let moved = session.moved().unwrap_or_default();
    session.undo()?;
    println!("undone");
    print_frames(&mut session, &names, &moved);
    if let Err(layout::Fault::Refused(reply)) = session.line("window 100 100") {
        println!("refused: {}", reply.lines().next().unwrap_or(""));
    }
    println!("all views");
    for placed in session.frames().unwrap_or_default() {
        let [left, top, width, height] = placed.frame;
        println!("  {} {left} {top} {width} {height}", session.name(placed.view).unwrap_or_default());
    }
    println!("status 2: {}", layout::status_name(2).unwrap_or_default());
    Ok(())
}
