//! Frame error rate and iterations of the proved decoder over a channel's noise, for each criterion, as comma-separated
//! values. All criteria decode the same blocks, which go through the proved front.
use bench::channel::Channel;
use bench::count::Stop;
use bench::noise::Random;
use bench::options::{print, run};
use bench::plan::{given, Plan, Usual};

const USUAL: Usual = Usual {
    range: |channel| match channel {
        Channel::Gaussian => [1.0, 3.5, 0.25],
        Channel::Fading => [0.0, 16.0, 2.0],
        Channel::Flipping => [0.03, 0.09, 0.01],
        Channel::Erasing => [0.3, 0.45, 0.025],
    },
    stop: Stop {
        errors: Some(100),
        blocks: 20_000,
    },
};

fn curves(arguments: &[String]) -> Result<(), String> {
    let plan = Plan::new(&given(arguments, &[])?, &USUAL)?;
    let mut random = Random(plan.seed);
    let column = plan.channel.column();
    print(&format!(
        "{column},criterion,operand,blocks,frame_errors,iterations"
    ));
    for at in &plan.points {
        let place = plan.channel.place(*at);
        let with = (&plan.mask[..], &plan.choice);
        let point = plan.count(&place, with, *at, plan.stop, &mut random);
        for ((criterion, operand), count) in plan.criteria.iter().zip(&point.counts) {
            let (blocks, errors, iterations) = (point.blocks, count.errors, count.iterations);
            print(&format!(
                "{at},{criterion},{operand},{blocks},{errors},{iterations}"
            ));
        }
    }
    Ok(())
}

fn main() {
    run("curves", curves);
}
