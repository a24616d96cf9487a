//! Pictures of what went on: who sent what to whom, and when it came.

use super::ways::{measure, name, world, Way, WAYS};
use super::world::{Arrow, Mail, Party};
use std::collections::{BTreeMap, BTreeSet};
use stobbarel::{read_message, Answer, Group, Message, Question, Vote};

/// What stands beside an arrow.
pub fn label(group: Group, mail: &Mail) -> String {
    match mail {
        Mail::Message(bytes) => match read_message(group, bytes) {
            Ok(Message::Prepare(_)) => "PR".into(),
            Ok(Message::Log(_, list)) => format!("LG {}", list.decision),
            Ok(Message::Decide(_, list)) => format!("DC {}", list.decision),
            Ok(Message::Invoke(..)) => "IV".into(),
            Ok(Message::Lead(_, election)) => format!("LD {} {}", election.decision, election.view),
            _ => "?".into(),
        },
        Mail::Ask(Question::Held(_)) => "held?".into(),
        Mail::Ask(Question::Way(_)) => "way?".into(),
        Mail::Told(..) => "told".into(),
        Mail::Elect(_, decision, view) => format!("elect {decision} {view}"),
        Mail::Answer(_, answer, handed) => match answer {
            Ok(Answer::Voted(Vote::Commit, _)) => "commit".into(),
            Ok(Answer::Voted(Vote::Abort(reason), _)) => format!("abort {}", u8::from(*reason)),
            Ok(Answer::Voted(Vote::Waiting, _)) => "wait".into(),
            Ok(Answer::Logged(decision, view)) => format!("log {decision} {view}"),
            Ok(Answer::Elected { view, .. }) => format!("view {view}"),
            Ok(Answer::Decided(_)) if handed.is_some() => "DC".into(),
            Ok(Answer::Decided(_)) => "decided".into(),
            Ok(Answer::Done) => "done".into(),
            Err(refusal) => refusal.number().to_string(),
            Ok(Answer::Found { .. }) => "found".into(),
        },
    }
}

// ---- the drawings of docs/GATEWAY.md

const LANE: u64 = 110;
const STEP: u64 = 46;

/// The place of a lane: the gateway first, then the boxes.
fn lane(party: Party) -> u64 {
    match party {
        Party::Desk(_) => 60,
        Party::Box(number) => 60 + LANE * (u64::from(number) + 1),
    }
}

/// Times at which something was sent or came, close together whatever time passed between.
fn places(arrows: &[Arrow]) -> BTreeMap<u64, u64> {
    let times: BTreeSet<u64> = arrows.iter().flat_map(|arrow| [arrow.sent, arrow.arrives]).collect();
    times.into_iter().zip(0..).map(|(time, place)| (time, 60 + STEP * place)).collect()
}

/// A sequence: a line for the gateway and for each box, time downwards, and an arrow for each message.
fn sequence(title: &str, n: u8, arrows: &[Arrow]) -> String {
    let places = places(arrows);
    let (wide, high) = (120 + LANE * u64::from(n), places.values().max().copied().unwrap_or(60) + 30);
    let mut out = format!("<svg xmlns=\"http://www.w3.org/2000/svg\" viewBox=\"0 0 {wide} {high}\" font-family=\"sans-serif\" font-size=\"11\">\n");
    out += "<rect width=\"100%\" height=\"100%\" fill=\"white\"/>\n<defs><marker id=\"tip\" viewBox=\"0 0 8 8\" refX=\"8\" refY=\"4\" markerWidth=\"7\" \
            markerHeight=\"7\" orient=\"auto\"><path d=\"M0 0L8 4L0 8z\"/></marker></defs>\n";
    out += &format!("<text x=\"8\" y=\"16\" font-weight=\"bold\">{title}</text>\n");
    for number in 0..=n {
        let (x, name) = (60 + LANE * u64::from(number), if number == 0 { "gateway".into() } else { format!("box {}", number - 1) });
        out += &format!("<text x=\"{x}\" y=\"40\" text-anchor=\"middle\">{name}</text>");
        out += &format!("<line x1=\"{x}\" x2=\"{x}\" y1=\"46\" y2=\"{high}\" stroke=\"#bbb\"/>\n");
    }
    for ((sent, arrives, from, to), text) in together(arrows) {
        let (x1, x2, y1, y2, colour) = (lane(from), lane(to), places[&sent], places[&arrives], colour(&text));
        out += &format!("<line x1=\"{x1}\" y1=\"{y1}\" x2=\"{x2}\" y2=\"{y2}\" stroke=\"{colour}\" marker-end=\"url(#tip)\"/>\n");
        // at the end where arrows are apart
        let far = if matches!(to, Party::Desk(_)) || text.starts_with("elect") { 1 } else { 3 };
        let (x, y) = (((4 - far) * x1 + far * x2) / 4, ((4 - far) * y1 + far * y2) / 4 - 2);
        out += &format!("<text x=\"{x}\" y=\"{y}\" text-anchor=\"middle\" fill=\"{colour}\" font-size=\"9\">{text}</text>\n");
    }
    out + "</svg>\n"
}

/// What goes the same way at the same time is one arrow.
fn together(arrows: &[Arrow]) -> BTreeMap<(u64, u64, Party, Party), String> {
    let mut out: BTreeMap<(u64, u64, Party, Party), String> = BTreeMap::new();
    for arrow in arrows.iter().filter(|arrow| arrow.from != arrow.to) {
        let text = out.entry((arrow.sent, arrow.arrives, arrow.from, arrow.to)).or_default();
        if !text.split(", ").any(|one| one == arrow.text) {
            let comma = if text.is_empty() { "" } else { ", " };
            *text += &format!("{comma}{}", arrow.text);
        }
    }
    out
}

fn colour(text: &str) -> &'static str {
    match text.split([' ', ',', '′']).next().unwrap_or("") {
        "PR" | "LG" | "DC" => "#0b5394",
        "IV" | "LD" | "elect" | "view" => "#b45f06",
        "way?" | "held?" | "told" => "#38761d",
        _ => "#555555",
    }
}

/// Hops and messages of each way as bars, f = 1 and f = 2.
fn bars() -> String {
    let mut out = String::from("<svg xmlns=\"http://www.w3.org/2000/svg\" viewBox=\"0 0 900 330\" font-family=\"sans-serif\" font-size=\"11\">\n");
    out += "<rect width=\"100%\" height=\"100%\" fill=\"white\"/>\n<text x=\"330\" y=\"16\">hops to the proof</text><text x=\"540\" y=\"16\">messages until all are done: \
            f = 1 dark, f = 2 light</text>\n";
    for (way, place) in WAYS.into_iter().zip(0u64..) {
        let y = 24 + 27 * place;
        out += &format!("<text x=\"310\" y=\"{}\" text-anchor=\"end\">{}</text>\n", y + 15, name(way));
        for (f, colour) in [(1, "#0b5394"), (2, "#9fc5e8")] {
            let Some((hops, messages)) = measure(way, f) else { continue };
            for (x, wide, number) in [(330, 2 * hops, hops), (540, messages / 5, messages)] {
                let y = y + 11 * (f - 1);
                out += &format!("<rect x=\"{x}\" y=\"{y}\" width=\"{wide}\" height=\"10\" fill=\"{colour}\"/>");
                out += &format!("<text x=\"{}\" y=\"{}\">{number}</text>\n", x + wide + 4, y + 9);
            }
        }
    }
    out + "</svg>\n"
}

/// Each way's picture, f = 1, and the bars: file names and what stands in them.
pub fn pictures() -> Vec<(String, String)> {
    let ways = [("fast", Way::Commit), ("logged", Way::Logged), ("fallback", Way::Fallback), ("misled", Way::Misled(1)), ("rescue", Way::Below(1))];
    let mut all: Vec<(String, String)> = vec![("gateway-ways.svg".into(), bars())];
    for (file, way) in ways {
        let mut world = world(way, 1, None, None, None);
        world.arrows = Some(vec![]);
        world.run(10_000);
        all.push((format!("gateway-{file}.svg"), sequence(&name(way), world.n, &world.arrows.take().unwrap_or_default())));
    }
    all
}

/// All of them into a folder.
pub fn draw(folder: &str) -> bool {
    pictures().iter().all(|(file, picture)| std::fs::write(format!("{folder}/{file}"), picture).is_ok())
}
