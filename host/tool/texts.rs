//! The tool's own reading of texts that the library has accepted, for lists and drawings. Lines with unknown keys are passed over.

/// A step at which the line may stop, and what a stop costs there.
#[derive(Debug, Clone, Copy, Default, PartialEq, Eq)]
pub struct Opening {
    pub step: u64,
    pub fee: u64,
}

/// A part: its life, what is left of its first, what it costs to take it out, the parts that hold it, its price at each opening (the high end where
/// it is a band, with the low end beside it), and the rule that gives the prices where there is one.
#[derive(Debug, Clone, Default)]
pub struct Part {
    pub life: u64,
    pub left: u64,
    pub removal: u64,
    pub holders: Vec<u64>,
    pub rule: Option<Rule>,
    pub prices: Vec<u64>,
    pub lows: Vec<u64>,
    /// How many of the prices are bands.
    pub bands: u64,
}

/// Prices by a rule: the first opening's, by how much each further one's is lower, and what none is below.
#[derive(Debug, Clone, Copy, Default, PartialEq, Eq)]
pub struct Rule {
    pub base: u64,
    pub drop: u64,
    pub least: u64,
}

impl Rule {
    /// The price at an opening, counted from 0.
    fn price(&self, opening: usize) -> u64 {
        self.base.saturating_sub(self.drop.saturating_mul(opening as u64)).max(self.least)
    }
}

/// A job as its text says it.
#[derive(Debug, Clone, Default)]
pub struct Job {
    pub horizon: u64,
    pub idles: Vec<u64>,
    pub openings: Vec<Opening>,
    pub parts: Vec<Part>,
}

/// A stop of a plan and the parts changed at it, counted from 1.
#[derive(Debug, Clone, Default, PartialEq, Eq)]
pub struct Stop {
    pub step: u64,
    pub parts: Vec<u64>,
}

/// A plan as its text says it, with the cost that it states.
#[derive(Debug, Clone, Default)]
pub struct Plan {
    pub cost: u64,
    pub stops: Vec<Stop>,
}

impl Job {
    /// The fee of a stop at this step.
    pub fn fee(&self, step: u64) -> u64 {
        self.openings.iter().find(|opening| opening.step == step).map_or(0, |opening| opening.fee)
    }

    /// The price of a part, counted from 1, at this step, a band's high end; none where the text gives it in a form that this reader does not know.
    pub fn price(&self, part: u64, step: u64) -> Option<u64> {
        self.part(part)?.prices.get(self.opening(step)?).copied()
    }

    /// The low end of that price.
    pub fn low_price(&self, part: u64, step: u64) -> Option<u64> {
        self.part(part)?.lows.get(self.opening(step)?).copied()
    }

    /// The place of the opening at this step.
    fn opening(&self, step: u64) -> Option<usize> {
        self.openings.iter().position(|opening| opening.step == step)
    }

    /// Whether some price is a band.
    pub fn has_bands(&self) -> bool {
        self.parts.iter().any(|part| part.bands > 0)
    }
}

impl Job {
    /// The parts that come out at a stop, counted from 1: those that are changed, their holders, the holders' holders and so on.
    pub fn removed(&self, stop: &Stop) -> Vec<u64> {
        let mut out = stop.parts.clone();
        let mut at = 0;
        while let Some(part) = out.get(at).copied() {
            let holders = self.part(part).map_or(&[][..], |part| &part.holders);
            for holder in holders {
                if !out.contains(holder) {
                    out.push(*holder);
                }
            }
            at += 1;
        }
        out.sort_unstable();
        out
    }

    /// The parts that come out at a stop and stay in use: holders that are not changed there.
    pub fn put_back(&self, stop: &Stop) -> Vec<u64> {
        self.removed(stop).into_iter().filter(|part| !stop.parts.contains(part)).collect()
    }

    /// The text of a job, with a line for each price, or two where it is a band with two ends.
    pub fn text(&self) -> String {
        let mut text = format!("horizon={}\n", self.horizon);
        if !self.idles.is_empty() {
            text += &format!("idles={}\n", self.idles.len());
            text.extend(self.idles.iter().map(|idle| format!("idle={idle}\n")));
        }
        text += &format!("openings={}\n", self.openings.len());
        text.extend(self.openings.iter().map(|opening| format!("opening={}\nfee={}\n", opening.step, opening.fee)));
        text += &format!("parts={}\n", self.parts.len());
        for part in &self.parts {
            text += &format!("life={}\nleft={}\n", part.life, part.left);
            if part.removal > 0 || !part.holders.is_empty() {
                text += &format!("removal={}\ninside={}\n", part.removal, part.holders.len());
                text.extend(part.holders.iter().map(|holder| format!("holder={holder}\n")));
            }
            for (price, low) in part.prices.iter().zip(&part.lows) {
                match part.bands > 0 && low != price {
                    true => text += &format!("low={low}\nhigh={price}\n"),
                    false => text += &format!("price={price}\n"),
                }
            }
        }
        text
    }

    /// The same job with those of its openings alone that are wanted.
    pub fn only_open(&self, wanted: impl Fn(u64) -> bool) -> Job {
        let kept: Vec<usize> = (0..self.openings.len()).filter(|at| wanted(self.openings[*at].step)).collect();
        let own = |list: &[u64]| kept.iter().filter_map(|at| list.get(*at).copied()).collect();
        let part = |part: &Part| Part { prices: own(&part.prices), lows: own(&part.lows), ..part.clone() };
        Job { openings: kept.iter().map(|at| self.openings[*at]).collect(), parts: self.parts.iter().map(part).collect(), ..self.clone() }
    }

    /// Whether some part has a removal or a holder.
    pub fn has_removals(&self) -> bool {
        self.parts.iter().any(|part| part.removal > 0 || !part.holders.is_empty())
    }

    /// What taking a part out costs.
    pub fn removal(&self, part: u64) -> u64 {
        self.part(part).map_or(0, |part| part.removal)
    }

    fn part(&self, part: u64) -> Option<&Part> {
        self.parts.get(usize::try_from(part).ok()?.checked_sub(1)?)
    }
}

impl Plan {
    /// The plan's text, as the judge reads it.
    pub fn text(&self) -> String {
        let mut text = format!("cost={}\nstops={}\n", self.cost, self.stops.len());
        for stop in &self.stops {
            text += &format!("stop={}\ncount={}\n", stop.step, stop.parts.len());
            text.extend(stop.parts.iter().map(|part| format!("part={part}\n")));
        }
        text
    }

    /// The steps at which a part, counted from 1, is changed.
    pub fn changes(&self, part: u64) -> Vec<u64> {
        self.stops.iter().filter(|stop| stop.parts.contains(&part)).map(|stop| stop.step).collect()
    }

    /// How many changes there are.
    pub fn change_count(&self) -> u64 {
        self.stops.iter().map(|stop| stop.parts.len() as u64).sum()
    }
}

/// Where the lines of a text start.
pub fn line_starts(text: &[u8]) -> impl Iterator<Item = usize> + '_ {
    let after = text.iter().enumerate().filter(|(_, byte)| **byte == b'\n').map(|(at, _)| at + 1);
    std::iter::once(0).chain(after).filter(|start| *start < text.len())
}

/// The lines of a text as keys and values. A line that is no key and number is passed over.
pub fn pairs(text: &[u8]) -> impl Iterator<Item = (&[u8], u64)> {
    text.split(|byte| *byte == b'\n').filter_map(|line| {
        let at = line.iter().position(|byte| *byte == b'=')?;
        let value = std::str::from_utf8(&line[at + 1..]).ok()?.parse().ok()?;
        Some((&line[..at], value))
    })
}

/// Reads an accepted job text.
pub fn job(text: &[u8]) -> Job {
    let mut job = Job::default();
    for (key, value) in pairs(text) {
        match key {
            b"horizon" => job.horizon = value,
            b"idle" => job.idles.push(value),
            b"opening" => job.openings.push(Opening { step: value, fee: 0 }),
            b"fee" => job.openings.last_mut().into_iter().for_each(|opening| opening.fee = value),
            b"life" => job.parts.push(Part { life: value, ..Part::default() }),
            _ => job.parts.last_mut().into_iter().for_each(|part| part.put(key, value)),
        }
    }
    let openings = job.openings.len();
    job.parts.iter_mut().for_each(|part| part.follow_rule(openings));
    job
}

impl Part {
    /// Reads a line behind the part's first.
    fn put(&mut self, key: &[u8], value: u64) {
        match key {
            b"left" => self.left = value,
            b"removal" => self.removal = value,
            b"holder" => self.holders.push(value),
            b"base" => self.rule = Some(Rule { base: value, ..Rule::default() }),
            b"drop" => self.rule.iter_mut().for_each(|rule| rule.drop = value),
            b"least" => self.rule.iter_mut().for_each(|rule| rule.least = value),
            b"low" => self.lows.push(value),
            b"high" => self.prices.push(value),
            b"price" => [&mut self.prices, &mut self.lows].into_iter().for_each(|list| list.push(value)),
            _ => {}
        }
        self.bands += u64::from(key == b"low");
    }

    /// The rule's price for each opening, where there is a rule.
    fn follow_rule(&mut self, openings: usize) {
        if let Some(rule) = self.rule {
            self.prices = (0..openings).map(|opening| rule.price(opening)).collect();
            self.lows = self.prices.clone();
        }
    }
}

/// Reads an accepted plan text. The empty one is the plan of doing nothing.
pub fn plan(text: &[u8]) -> Plan {
    let mut plan = Plan::default();
    for (key, value) in pairs(text) {
        match key {
            b"cost" => plan.cost = value,
            b"stop" => plan.stops.push(Stop { step: value, parts: Vec::new() }),
            b"part" => plan.stops.last_mut().into_iter().for_each(|stop| stop.parts.push(value)),
            _ => {}
        }
    }
    plan
}

#[cfg(test)]
mod tests {
    use super::*;

    const JOB: &str =
        "horizon=6\nidles=1\nidle=3\nwalk=11\nopenings=1\nopening=2\nfee=10\nparts=2\nlife=3\nleft=2\nprice=5\nlife=4\nleft=4\nprice=7\n";

    /// Lines with other keys, wherever they stand, change nothing of what is read.
    #[test]
    fn unknown_keys_are_passed_over() {
        let more = JOB.replace("left=2\n", "left=2\nlater=9\n").replace("fee=10\n", "fee=10\ncrew=4\n");
        assert_eq!(format!("{:?}", job(more.as_bytes())), format!("{:?}", job(JOB.as_bytes())));
        let read = job(more.as_bytes());
        assert_eq!((read.horizon, &read.idles[..]), (6, &[3][..]));
        assert_eq!((read.openings[0], read.parts.len()), (Opening { step: 2, fee: 10 }, 2));
        assert_eq!(
            (read.price(1, 2), read.price(2, 2), read.price(3, 2), read.price(0, 2), read.price(1, 3)),
            (Some(5), Some(7), None, None, None)
        );
        let plan = plan(b"costlow=3\ncost=15\nstops=1\nstop=2\ncount=1\npart=1\n");
        assert_eq!((plan.cost, plan.stops), (15, vec![Stop { step: 2, parts: vec![1] }]));
    }

    /// A job's text reads back as the same job; with fewer openings each part keeps the prices of those that stay.
    #[test]
    fn texts_read_back() {
        let more = JOB
            .replace("left=2\n", "left=2\nremoval=9\ninside=1\nholder=2\n")
            .replace("openings=1\nopening=2\nfee=10\n", "openings=2\nopening=2\nfee=10\nopening=4\nfee=3\n");
        let more = more.replace("price=5\n", "price=5\nprice=6\n").replace("price=7\n", "price=7\nprice=8\n");
        let read = job(more.as_bytes());
        assert_eq!(format!("{:?}", job(read.text().as_bytes())), format!("{read:?}"));
        assert_eq!(read.text(), more.replace("walk=11\n", ""));
        let later = read.only_open(|step| step > 2);
        assert_eq!((later.openings.len(), later.price(1, 4), later.price(2, 4), later.price(1, 2)), (1, Some(6), Some(8), None));
    }

    /// A part's lines of removal are read where they stand.
    #[test]
    fn removals_and_holders_are_read() {
        let read = job(JOB.replace("left=2\n", "left=2\nremoval=9\ninside=1\nholder=2\n").as_bytes());
        assert_eq!((read.parts[0].removal, &read.parts[0].holders[..], read.price(1, 2)), (9, &[2][..], Some(5)));
        assert_eq!((read.parts[1].removal, read.parts[1].holders.len()), (0, 0));
    }

    /// Prices in a form that is not known are missing, and not zero.
    #[test]
    fn unknown_prices_are_missing() {
        let read = job(JOB.replace("price=5\n", "tariff=9\n").as_bytes());
        assert_eq!((read.price(1, 2), read.price(2, 2)), (None, Some(7)));
    }

    /// A rule gives a price for each opening: falling, and none below its least.
    #[test]
    fn rules_give_prices() {
        let text = "openings=4\nopening=1\nopening=2\nopening=3\nopening=5\nparts=2\nlife=3\nleft=2\nbase=9\ndrop=3\nleast=4\nlife=3\nleft=3\nbase=2\ndrop=0\nleast=7\n";
        let read = job(text.as_bytes());
        assert_eq!((&read.parts[0].prices[..], &read.parts[1].prices[..]), (&[9, 6, 4, 4][..], &[7; 4][..]));
        assert_eq!((read.price(1, 5), read.price(2, 1)), (Some(4), Some(7)));
    }

    /// A band is priced at its high end, and its low end is kept.
    #[test]
    fn bands_have_two_ends() {
        let read = job(JOB.replace("price=5\n", "low=3\nhigh=5\n").as_bytes());
        assert_eq!((read.price(1, 2), read.low_price(1, 2), read.low_price(2, 2)), (Some(5), Some(3), Some(7)));
        assert_eq!((read.has_bands(), read.parts[0].bands, job(JOB.as_bytes()).has_bands()), (true, 1, false));
    }

    /// Every line of a job says something of it, but for counts and the walk line.
    #[test]
    fn every_line_of_the_table_is_read() {
        let aside = ["idles", "walk", "openings", "parts", "inside"];
        let rule = ["base", "drop", "least"];
        let lines = juzvarola_host::lines::JOB.iter().filter(|line| !rule.contains(&line.key));
        let text: String = lines.map(|line| format!("{}=3\n", line.key)).collect();
        let text = text + "life=4\nbase=3\ndrop=3\nleast=3\n";
        let whole = format!("{:?}", job(text.as_bytes()));
        for line in juzvarola_host::lines::JOB {
            let without = text.replace(&format!("{}=3\n", line.key), "");
            assert_eq!(format!("{:?}", job(without.as_bytes())) == whole, aside.contains(&line.key), "{}", line.key);
        }
    }
}
