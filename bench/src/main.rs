//! Times the library's calls against the Rust as published (release, overflow checks off): both on
//! the same inputs, in turn, in one run. Prints nanoseconds per call and the library's time over the
//! Rust's. The two must give the same answers.
//!
//!   bench [cells] [labels] [layers] [aggregates] [survey] [routes] [rings] [lines] [searches]    those alone

#[cfg(aggregates)]
mod aggregates;
mod cells;
#[cfg_attr(
    not(all(labels, aggregates, survey, routes, rings, lines, searches)),
    allow(dead_code)
)]
mod face;
#[cfg(labels)]
mod labels;
mod layers;
#[cfg(lines)]
mod lines;
#[cfg(rings)]
mod rings;
#[cfg(routes)]
mod routes;
#[cfg(searches)]
mod searches;
#[cfg(survey)]
mod survey;
mod timing;

#[cfg(not(labels))]
mod labels {
    pub fn rows() {
        println!("labels: not in this library");
    }
}

#[cfg(not(aggregates))]
mod aggregates {
    pub fn rows() {
        println!("aggregates and rollups: not in this library");
    }
}

#[cfg(not(survey))]
mod survey {
    pub fn rows() {
        println!("survey files: not in this library");
    }
}

#[cfg(not(routes))]
mod routes {
    pub fn rows() {
        println!("routes: not in this library");
    }
}

#[cfg(not(rings))]
mod rings {
    pub fn rows() {
        println!("rings: not in this library");
    }
}

#[cfg(not(lines))]
mod lines {
    pub fn rows() {
        println!("lines: not in this library");
    }
}

#[cfg(not(searches))]
mod searches {
    pub fn rows() {
        println!("searches: not in this library");
    }
}

fn main() {
    let words: Vec<String> = std::env::args().skip(1).collect();
    println!(
        "{:38} {:>11} {:>11} {:>8} {:>11}",
        "ns per call", "library", "Rust", "ratio", "of it test"
    );
    let groups: [(&str, fn()); 9] = [
        ("cells", cells::rows),
        ("labels", labels::rows),
        ("layers", layers::rows),
        ("aggregates", aggregates::rows),
        ("survey", survey::rows),
        ("routes", routes::rows),
        ("rings", rings::rows),
        ("lines", lines::rows),
        ("searches", searches::rows),
    ];
    for (name, rows) in groups {
        if words.is_empty() || words.iter().any(|word| word == name) {
            rows();
        }
    }
}
