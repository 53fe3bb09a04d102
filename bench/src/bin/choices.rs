//! What the choices of a user do to the proved decoder: factor, scale, ceiling and the order of the mask, one at a
//! time and all on the same blocks. Prints the frame error rate and the iterations on average.
use bench::channel::Channel;
use bench::count::Stop;
use bench::masks;
use bench::noise::Random;
use bench::options::{print, run, Given};
use bench::plan::{self, Choice, Plan, Usual};

const USUAL: Usual = Usual {
    range: |channel| match channel {
        Channel::Gaussian => [2.5, 2.5, 0.25],
        Channel::Fading => [12.0, 12.0, 2.0],
        Channel::Flipping => [0.05, 0.05, 0.01],
        Channel::Erasing => [0.35, 0.35, 0.025],
    },
    stop: Stop {
        errors: None,
        blocks: 4000,
    },
};

/// A mask in the wrong order fails so often that few blocks show it.
const BLOCKS_IN_OTHER_ORDER: u32 = 500;

/// The choices to try, each with the name of what it changes.
fn choices(plan: &Plan, given: &Given) -> Result<Vec<(&'static str, Choice)>, String> {
    let times = plan::times(given, "try-times", "1,2,4,8,16,32")?;
    let scales = plan::wholes(given, "try-scale", "12,13,14,15,16")?;
    let ceilings = plan::wholes(given, "try-ceiling", "31,63,127,255,511,1023")?;
    let changed = |name, change: &dyn Fn(&mut Choice)| {
        let mut choice = plan.choice;
        change(&mut choice);
        (name, choice)
    };
    let mut choices = Vec::new();
    if plan.channel != Channel::Erasing {
        choices.extend(
            times
                .iter()
                .map(|it| changed("factor", &|to| to.times = *it)),
        );
    } else if given.has("try-times") {
        return Err("--try-times: an erasing channel has no factor".to_string());
    }
    choices.extend(
        scales
            .iter()
            .map(|it| changed("scale", &|to| to.scale = *it)),
    );
    choices.extend(
        ceilings
            .iter()
            .map(|it| changed("ceiling", &|to| to.ceiling = *it)),
    );
    accepted(plan, given, choices)
}

/// Those that the decoder takes. A refusal is a slip where the user has given the list; of the default lists what is
/// refused is left out, a ceiling below the criterion's operand.
fn accepted(
    plan: &Plan,
    given: &Given,
    choices: Vec<(&'static str, Choice)>,
) -> Result<Vec<(&'static str, Choice)>, String> {
    let mut accepted = Vec::new();
    for (name, choice) in choices {
        match plan.accept("try-", &choice) {
            Err(slip) if given.has(&format!("try-{name}")) => return Err(slip),
            Err(_) => {}
            Ok(()) => accepted.push((name, choice)),
        }
    }
    Ok(accepted)
}

/// One line of the table. Every line has the same blocks, since each begins with the seed anew.
fn try_out(plan: &Plan, name: &str, mask: &[u8], choice: &Choice, at: f64, stop: Stop) {
    let Choice { scale, ceiling, .. } = choice;
    let times = match plan.channel {
        Channel::Erasing => "-".to_string(),
        _ => choice.times.to_string(),
    };
    let place = format!(
        "{}, {name}, times {times}, scale {scale}, ceiling {ceiling}",
        plan.channel.place(at)
    );
    let point = plan.count(&place, (mask, choice), at, stop, &mut Random(plan.seed));
    let (blocks, count) = (point.blocks, &point.counts[0]);
    let rate = f64::from(count.errors) / f64::from(blocks);
    let iterations = count.iterations as f64 / f64::from(blocks);
    print(&format!(
        "{name:22} {times:>5} {scale:>6} {ceiling:>8} {blocks:>7} {rate:>17.4} {iterations:>11.2}"
    ));
}

fn table(arguments: &[String]) -> Result<(), String> {
    let given = plan::given(arguments, &["try-times", "try-scale", "try-ceiling"])?;
    let mut plan = Plan::new(&given, &USUAL)?;
    plan.criteria.truncate(1);
    let choices = choices(&plan, &given)?;
    let few = Stop {
        blocks: plan.stop.blocks.min(BLOCKS_IN_OTHER_ORDER),
        ..plan.stop
    };
    for at in &plan.points {
        let place = plan.channel.place(*at);
        print(&format!(
            "{place:22} times  scale  ceiling  blocks  frame error rate  iterations"
        ));
        // the natural order, or, of a natural mask that was taken for a reversed one, the one that it needs
        let other = masks::reversed(&plan.mask);
        try_out(&plan, "mask in other order", &other, &plan.choice, *at, few);
        for (name, choice) in &choices {
            try_out(&plan, name, &plan.mask, choice, *at, plan.stop);
        }
    }
    Ok(())
}

fn main() {
    run("choices", table);
}
