//! Many plans, each given to both sides in several calls, up to the first on which they differ.

use crate::call::{Call, Lent, Place, Reply, Texts};
use crate::circumstances::{Met, Request};
use crate::compare::{self, Mismatch};
use crate::memory::Setting;
use crate::model::{self, Survey};
use crate::random::Random;
use crate::statistics::Statistics;
use crate::{enumerate, generate, lengths};
use std::collections::hash_map::DefaultHasher;
use std::collections::HashSet;
use std::fs;
use std::hash::{Hash, Hasher};
use std::path::PathBuf;
use std::time::Instant;

/// Of the generated plans without an array, and of those that reading refuses, one in so many has an
/// insertion asked for; every other one has.
const OTHER_PLANS: usize = 8;

/// Texts on which the sides differ.
pub struct Failure {
    pub texts: Texts<Vec<u8>>,
    pub mismatch: Box<Mismatch>,
}

/// Compares plans and counts what they reach.
#[derive(Default)]
pub struct Campaign {
    pub statistics: Statistics,
    /// Where each plan is kept before it is read, and beside it each insertion: the only trace of
    /// one that ends the process.
    last_plan: Option<PathBuf>,
    /// Hashes of the plans met, so that none is counted twice.
    met: HashSet<u64>,
}

impl Campaign {
    /// A campaign that keeps each plan in the file `last_plan`, if there is one.
    pub fn new(last_plan: Option<PathBuf>) -> Self {
        Campaign {
            last_plan,
            ..Campaign::default()
        }
    }

    /// Compares every enumerated plan and every enumerated insertion.
    pub fn enumerate(&mut self) -> Result<(), Failure> {
        enumerate::all(&mut |source| {
            let Some(survey) = self.take_up(source) else {
                return Ok(());
            };
            self.compare(source, lengths::few(&survey, source.len()))?;
            let (texts, place) = enumerate::insertion(source);
            self.insert_few(texts, place, &survey)
        })?;
        enumerate::insertions(&mut |texts, place| {
            self.keep("", texts.source);
            let survey = model::survey(texts.source, usize::MAX);
            self.insert_few(texts, place, &survey)
        })
    }

    fn insert_few(&mut self, texts: Lent, place: Place, survey: &Survey) -> Result<(), Failure> {
        self.insert(texts, place, survey, |to_write| {
            lengths::few_insertions(survey, place, to_write)
        })
    }

    /// Compares `plans` different plans generated from one seed, or fewer if the time is over.
    pub fn generate(
        &mut self,
        seed: u64,
        plans: u64,
        deadline: Option<Instant>,
    ) -> Result<(), Failure> {
        let mut random = Random::new(seed);
        let wanted = self.statistics.plans() + plans;
        while self.statistics.plans() < wanted && deadline.is_none_or(|end| Instant::now() < end) {
            let source = generate::plan(&mut random);
            if let Some(survey) = self.take_up(&source) {
                let calls = lengths::around(&survey, source.len(), &mut random);
                self.compare(&source, calls)?;
                if survey.has_array() || random.one_in(OTHER_PLANS) {
                    self.generate_insertion(&source, &survey, &mut random)?;
                }
            }
        }
        Ok(())
    }

    fn generate_insertion(
        &mut self,
        source: &[u8],
        survey: &Survey,
        random: &mut Random,
    ) -> Result<(), Failure> {
        let insertion = generate::insertion(random, source, survey);
        let place = insertion.place;
        self.insert(insertion.texts(source), place, survey, |to_write| {
            lengths::around_insertion(survey, place, to_write, random)
        })
    }

    /// Forgets the plans met: a timed run has more of them than memory should hold.
    pub fn forget(&mut self) {
        self.met.clear();
    }

    /// The model's answer to a new plan where no room is wanting; none for a plan met before.
    fn take_up(&mut self, source: &[u8]) -> Option<Survey> {
        let mut hasher = DefaultHasher::new();
        source.hash(&mut hasher);
        if !self.met.insert(hasher.finish()) {
            return None;
        }
        self.keep("", source);
        let survey = model::survey(source, usize::MAX);
        self.statistics.count_plan(source, &survey);
        Some(survey)
    }

    /// Makes every call with the plan.
    fn compare(&mut self, source: &[u8], calls: Vec<Call>) -> Result<(), Failure> {
        self.make(Lent::plan(source), calls, |_, _, _| {})
    }

    /// Makes the calls that are chosen for an insertion, by the bytes that it writes if it is not
    /// refused in any case.
    fn insert(
        &mut self,
        texts: Lent,
        place: Place,
        survey: &Survey,
        choose: impl FnOnce(Option<usize>) -> Vec<Call>,
    ) -> Result<(), Failure> {
        if self.last_plan.is_some() {
            let Texts { source, key, value } = texts.map(|text| text.escape_ascii());
            let told = format!("plan {source}\n{place:?}\nkey {key}\nvalue {value}\n");
            self.keep(".insertion", told.as_bytes());
        }
        let to_write = model::bytes_to_write(texts, place);
        let calls = choose(to_write.ok());
        let request = Request::new(texts, place, survey, to_write);
        self.make(texts, calls, |statistics, call, reply| {
            statistics.count_insertion(&Met {
                request: &request,
                call,
                reply,
            });
        })
    }

    /// Makes every call, in both settings by turns, and has each on which the sides agree counted.
    fn make(
        &mut self,
        texts: Lent,
        calls: Vec<Call>,
        mut count: impl FnMut(&mut Statistics, Call, Reply),
    ) -> Result<(), Failure> {
        for (call, setting) in calls.into_iter().zip(Setting::ALL.into_iter().cycle()) {
            let compared = compare::both(texts, call, setting);
            let reply = compared.map_err(|mismatch| Failure {
                texts: texts.kept(),
                mismatch,
            })?;
            self.statistics.count_call(call.service, reply);
            count(&mut self.statistics, call, reply);
        }
        Ok(())
    }

    /// Keeps what is about to be tried, in the file with this ending.
    fn keep(&self, ending: &str, bytes: &[u8]) {
        if let Some(path) = &self.last_plan {
            let mut path = path.clone().into_os_string();
            path.push(ending);
            fs::write(path, bytes).expect("the files for the last plan can be written");
        }
    }
}

/// The first mismatch among all calls worth trying of the service that showed one, for the search
/// after shorter texts.
pub fn mismatch(texts: Lent, call: Call) -> Option<Box<Mismatch>> {
    let survey = model::survey(texts.source, usize::MAX);
    lengths::thorough(&survey, texts, call)
        .into_iter()
        .flat_map(|call| Setting::ALL.map(|setting| compare::both(texts, call, setting)))
        .find_map(Result::err)
}
