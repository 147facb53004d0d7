//! The Rust's report, printed as document 01 has it.

use crate::gfa_self_loops::{SelfLoopNodeReport, SelfLoopReport};
use std::collections::HashMap;

/// Puts nodes that the Rust's sort does not tell apart, which are all unknown,
/// into the order of their first self-links.
pub fn in_order(nodes: &mut [SelfLoopNodeReport], first_self_links: &HashMap<&str, usize>) {
    for tied in nodes.chunk_by_mut(|a, b| sort_key(a) == sort_key(b)) {
        tied.sort_by_key(|node| first_self_links[node.node.as_str()]);
    }
}

/// Do nodes tie, so that it matters for the first `top_n`?
pub fn has_ties(nodes: &[SelfLoopNodeReport], top_n: usize) -> bool {
    nodes
        .windows(2)
        .take(top_n)
        .any(|pair| sort_key(&pair[0]) == sort_key(&pair[1]))
}

fn sort_key(node: &SelfLoopNodeReport) -> [usize; 4] {
    [
        node.adjacent_same_step_path_steps,
        node.total_path_visits,
        node.direct_self_loop_edges,
        node.order,
    ]
}

/// The six totals, the buckets, then thirteen lines for each node.
pub fn print(report: &SelfLoopReport) -> Vec<u8> {
    let mut lines = vec![
        format!("direct_self_loop_edges={}", report.direct_self_loop_edges),
        format!("direct_self_loop_nodes={}", report.direct_self_loop_nodes),
        format!(
            "adjacent_same_node_path_steps={}",
            report.adjacent_same_node_path_steps
        ),
        format!(
            "adjacent_same_step_path_steps={}",
            report.adjacent_same_step_path_steps
        ),
        format!("repeated_path_runs={}", report.repeated_path_runs),
        format!("max_repeat_run_len={}", report.max_repeat_run_len),
    ];
    for bucket in &report.length_buckets {
        lines.push(format!(
            "length_bucket={},{},{}",
            bucket.sequence_len, bucket.nodes, bucket.direct_self_loop_edges
        ));
    }
    for node in &report.top_nodes {
        lines.extend(node_lines(node));
    }
    lines
        .into_iter()
        .flat_map(|line| (line + "\n").into_bytes())
        .collect()
}

fn node_lines(node: &SelfLoopNodeReport) -> [String; 13] {
    [
        format!("node={}", node.node),
        format!("order={}", node.order),
        format!("sequence_len={}", node.sequence_len),
        format!("sequence_preview={}", node.sequence_preview),
        format!("direct_self_loop_edges={}", node.direct_self_loop_edges),
        format!("link_orientations={}", node.link_orientations.join(",")),
        format!("total_path_visits={}", node.total_path_visits),
        format!("distinct_paths={}", node.distinct_paths),
        format!(
            "adjacent_same_node_path_steps={}",
            node.adjacent_same_node_path_steps
        ),
        format!(
            "adjacent_same_step_path_steps={}",
            node.adjacent_same_step_path_steps
        ),
        format!("repeated_path_runs={}", node.repeated_path_runs),
        format!("max_repeat_run_len={}", node.max_repeat_run_len),
        format!("max_repeat_run_path={}", node.max_repeat_run_path),
    ]
}
