//! Lists the steps of both sides of τ.0 + [a=b]τ.0 and a(x).0, with c for a received name.

use exchange::{Answer, Name, Question, Refusal, Side, STEPS, STEP_BYTES};

fn main() -> Result<(), Refusal> {
    let bytes = [1, 0, 0, 8, 6, 1, 0, 5, 0, 1, 1, 0, 0, 3, 2, 0, 0, 0, 0];
    let question = Question::new(&bytes)?;
    let new_name = Name::new(2).expect("2 is a name");
    let mut area = [0; STEPS * STEP_BYTES];
    for side in Side::BOTH {
        match question.steps(side, new_name, &mut area)? {
            Answer::Unsettled => println!("{side:?}: past a limit"),
            Answer::Result(steps) => {
                for step in steps.iter() {
                    let merged = Name::all().filter(|&name| step.class(name) != name).count();
                    println!("{side:?}: {:?}, names merged: {merged}", step.action());
                }
            }
        }
    }
    Ok(())
}
