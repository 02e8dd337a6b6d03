//! Links the library: what TISHKOLAN_LIBRARY names, as bench/run sets it. Calls that it does not
//! have are not timed.

const GROUPS: [(&str, &str); 7] = [
    ("labels", "tishkolan_cell_to_bech32m"),
    ("aggregates", "tishkolan_values_rollup"),
    ("survey", "tishkolan_survey_write"),
    ("routes", "tishkolan_route_verdict"),
    ("rings", "tishkolan_k_ring"),
    ("lines", "tishkolan_trace_line"),
    ("searches", "tishkolan_astar_with_limit"),
];

fn main() {
    println!("cargo:rerun-if-env-changed=TISHKOLAN_LIBRARY");
    let library = std::env::var("TISHKOLAN_LIBRARY").unwrap_or_default();
    let bytes = std::fs::read(&library).unwrap_or_default();
    println!("cargo:rerun-if-changed={library}");
    println!("cargo:rustc-link-arg={library}");
    println!("cargo:rustc-link-arg=-lm");
    for (group, call) in GROUPS {
        println!("cargo:rustc-check-cfg=cfg({group})");
        if bytes
            .windows(call.len())
            .any(|name| name == call.as_bytes())
        {
            println!("cargo:rustc-cfg={group}");
        }
    }
}
