//! The rows of the sums at the nodes met, at the start and after a plan.

use penthluk_reference::generate::cases::Case;
use penthluk_reference::generate::large::full;
use penthluk_reference::generate::long_registers::{longest_choices, longest_row};
use penthluk_reference::generate::path_sum_forms::path_sum_forms;
use penthluk_reference::generate::plans::{configurations, wander};
use penthluk_reference::generate::random::Random;
use penthluk_reference::network::{Bit, Configuration, Network};
use penthluk_reference::path_sums::{bits_up_to, nodes_met, sums};
use penthluk_reference::plan_text::{parse_plan, write_plan};
use penthluk_reference::reader::read_network;

use crate::program_rows::row;

/// The rows of a case whose network is accepted.
pub fn sum_rows(case: &Case) -> Vec<String> {
    rows_of(&case.network, &case.plan)
}

fn rows_of(network_text: &[u8], plan: &[u8]) -> Vec<String> {
    let Ok(network) = read_network(network_text) else { return Vec::new() };
    let sum_row = |(plan, configuration): (&[u8], Configuration)| {
        row("summing", network_text, plan, &sum_lines(&network, &configuration), false)
    };
    settings(&network, plan).into_iter().map(sum_row).collect()
}

/// The rows of networks of 4,000 bits, one of them of 128 nodes, at the start and after one operation.
pub fn limit_rows() -> Vec<String> {
    let random = &mut Random::new(905);
    let mut rows = Vec::new();
    for draft in [full(), longest_row(random), longest_choices(random)] {
        let network = read_network(&draft.text()).expect("it is accepted");
        let plan = write_plan(&wander(random, &network, 1, 80));
        rows.extend(rows_of(&draft.text(), &plan));
    }
    rows
}

/// The names of the forms that these rows have.
pub fn sum_forms(case: &Case) -> Vec<&'static str> {
    let Ok(network) = read_network(&case.network) else { return Vec::new() };
    let mut forms = Vec::new();
    for (plan, configuration) in settings(&network, &case.plan) {
        forms.push(if plan.is_empty() { "sums at the start" } else { "sums after a plan" });
        forms.extend(path_sum_forms(&network, &configuration));
    }
    forms
}

/// No plan and the start; and the plan and the configuration after it, if all its operations fit.
fn settings<'p>(network: &Network, plan: &'p [u8]) -> Vec<(&'p [u8], Configuration)> {
    let operations = parse_plan(plan).unwrap_or_default();
    let mut configurations = configurations(network, &operations);
    let mut settings = vec![(&plan[..0], network.start.clone())];
    if configurations.len() > operations.len() && !operations.is_empty() {
        settings.extend(configurations.pop().map(|last| (plan, last)));
    }
    settings
}

/// A line for each node met: its number, the sum there and the count of path bits up to and with it; in a
/// configuration that is not valid, its number and X.
fn sum_lines(network: &Network, configuration: &[Vec<Bit>]) -> Vec<u8> {
    let met = nodes_met(network, configuration);
    let Some(sums) = sums(network, configuration) else {
        return met.iter().flat_map(|node| format!("met\t{node}\tX\n").into_bytes()).collect();
    };
    let line = |(&node, sum): (&usize, &usize)| {
        format!("met\t{node}\t{sum}\t{}\n", bits_up_to(network, &met, node)).into_bytes()
    };
    met.iter().zip(&sums).flat_map(line).collect()
}
