//! A number of steps with an evaluator.

use crate::{Block, Buffers, Chart, Ending, Refusal, Run, Verdict};

impl<B: Buffers> Chart<B> {
    /// Steps until, as in a run, the queue is empty (`Done`, or `Limit`), so many steps are finished (`More`), or one is refused (`Stop`).
    /// The evaluator is asked about each child; `Run::tape` counts its verdicts.
    pub fn refine(&mut self, evaluator: impl FnMut(&Block) -> Verdict, steps: u32) -> Result<Run, Refusal> {
        self.refine_watched(evaluator, steps, |_, _| ())
    }

    /// The same; after each step `watch` is shown the chart, and how many steps of these are finished.
    pub fn refine_watched(
        &mut self,
        mut evaluator: impl FnMut(&Block) -> Verdict,
        steps: u32,
        mut watch: impl FnMut(&Chart<B>, u32),
    ) -> Result<Run, Refusal> {
        let mut all = Run { ending: Ending::More, steps: 0, evaluations: 0, tape: 0 };
        for finished in 1..=steps {
            if self.is_finished() {
                break;
            }
            match self.step_with(&mut evaluator) {
                Err(why) => return Ok(Run { ending: Ending::Stop(why), ..all }),
                Ok(step) => {
                    all.steps += 1;
                    all.evaluations += step.evaluations;
                    all.tape += step.verdicts;
                    watch(self, finished);
                }
            }
        }
        // a run of no steps says how it stands with the chart
        Ok(Run { ending: self.run(&[], 0)?.ending, ..all })
    }
}
