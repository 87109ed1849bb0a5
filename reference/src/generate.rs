//! Deterministic generation of files and ledgers to compare with: valid files
//! that build on earlier accepted ones, files damaged so that one test is the
//! first to fail, bytes at random, unsound ledgers, and lists of bookings.

pub mod cancels;
pub mod content;
pub mod damage;
pub mod draft;
pub mod history;
pub mod puzzle;
pub mod random;
pub mod samples;
pub mod scenario;

use crate::bill::Commodity;
use crate::calendar::LAST_DAY;
use crate::conditions::condition_of;
use crate::fields::FieldType;
use crate::file::{Mark, RecordType};
use content::{
    date, one_time_record, period_records, Cancels, ContentBuilder, Days, OneTimeCharge,
    TariffBillPeriod,
};
use draft::{amount_text, Draft, DraftRecord, LineEnd, Original, Sent};
use random::Random;

/// How freely files are written.
#[derive(Clone, Copy, Debug, PartialEq, Eq)]
pub enum Style {
    /// As a distributor would: dates of 2024, numbers in their shortest form,
    /// cancels right before their rebills.
    Sample,
    /// All that documents 01 and 02 allow: days of the whole calendar, leading
    /// zeros, minus zero, either line end, rebills before their cancels, periods
    /// that overlap earlier ones, a site under two Site Headers, sites of any
    /// status, conditional fields left out or filled where their condition
    /// doesn't hold, and 0 for the amounts among them.
    Varied,
}

/// What a file is asked to hold.
#[derive(Clone, Copy, Debug)]
pub struct Request {
    /// The place of the sender among the generator's senders.
    pub sender: usize,
    /// The commodity.
    pub commodity: Commodity,
    /// The number of sites with original periods.
    pub sites: usize,
    /// The number of original periods of such a site.
    pub periods: usize,
    /// The number of sites with one-time charges alone.
    pub one_time_sites: usize,
    /// The greatest number of earlier records to cancel.
    pub cancels: usize,
}

impl Request {
    /// One site with one original period, of electricity, from the first sender.
    pub const ONE_PERIOD: Request = Request {
        sender: 0,
        commodity: Commodity::Electricity,
        sites: 1,
        periods: 1,
        one_time_sites: 0,
        cancels: 0,
    };
}

/// A site and the first day that no file has billed yet.
#[derive(Clone, Debug)]
struct SiteCourse {
    site: u64,
    commodity: Commodity,
    next_day: u32,
}

/// A period or one-time charge to be written, and which record it cancels.
#[derive(Clone)]
struct Item<Body> {
    body: Body,
    cancels: Cancels,
}

/// What is written under one Site Header.
struct SitePlan {
    site: u64,
    billing_period: Option<Days>,
    periods: Vec<Item<TariffBillPeriod>>,
    one_time_charges: Vec<Item<OneTimeCharge>>,
}

impl SitePlan {
    fn new(site: u64) -> Self {
        SitePlan { site, billing_period: None, periods: Vec::new(), one_time_charges: Vec::new() }
    }

    fn lines(&self) -> usize {
        let periods: usize = self.periods.iter().map(|item| item.body.lines()).sum();
        1 + periods + self.one_time_charges.len()
    }

    fn usage(&self) -> i64 {
        self.periods.iter().map(|item| signed(item.body.usage(), item.cancels)).sum()
    }

    fn charge(&self) -> i64 {
        let periods = self.periods.iter().map(|item| signed(item.body.charge(), item.cancels));
        let one_time = self.one_time_charges.iter();
        periods.sum::<i64>()
            + one_time.map(|item| signed(item.body.amount, item.cancels)).sum::<i64>()
    }
}

fn signed(units: i64, cancels: Cancels) -> i64 {
    if cancels.is_some() {
        -units
    } else {
        units
    }
}

/// So many periods of a site find room anywhere in the calendar.
const FEW_PERIODS: usize = 4;

/// So many times a damage may miss.
const MOST_TRIES: usize = 100_000;

/// The retailer of the desk's program.
pub const RETAILER: u64 = 999_999_999;

/// The distributor of the desk's program.
pub const DISTRIBUTOR: u64 = 40;

/// A generator of files that follow from its seed.
pub struct Generator {
    /// Where choices come from.
    pub random: Random,
    style: Style,
    senders: Vec<u64>,
    next_record_ids: Vec<u64>,
    courses: Vec<SiteCourse>,
    sent: Vec<Sent>,
}

impl Generator {
    /// A generator whose files come from the desk program's distributor.
    pub fn new(seed: u64, style: Style) -> Self {
        Self::with_senders(seed, style, &[DISTRIBUTOR])
    }

    /// A generator whose files come from these distributors. In the varied
    /// style all senders count their Record IDs from the same number.
    pub fn with_senders(seed: u64, style: Style, senders: &[u64]) -> Self {
        let mut random = Random::new(seed);
        let first_id = match style {
            Style::Sample => 1_001,
            Style::Varied => random.pick(&[0, 1, 500, 7_000_000_000, 999_999_900_000_000]),
        };
        Generator {
            random,
            style,
            senders: senders.to_vec(),
            next_record_ids: vec![first_id; senders.len()],
            courses: Vec::new(),
            sent: Vec::new(),
        }
    }

    /// The distributor IDs of the settings, four digits each.
    pub fn distributors(&self) -> Vec<u8> {
        self.senders.iter().flat_map(|sender| format!("{sender:04}").into_bytes()).collect()
    }

    /// A request for a file of some kind.
    pub fn request(&mut self) -> Request {
        let random = &mut self.random;
        Request {
            sender: random.place(self.senders.len()),
            commodity: random.pick(&[
                Commodity::Electricity,
                Commodity::Electricity,
                Commodity::NaturalGas,
            ]),
            sites: random.pick(&[0, 1, 1, 2, 3, 5]),
            periods: random.pick(&[1, 1, 2, 3]),
            one_time_sites: random.pick(&[0, 0, 1]),
            cancels: random.pick(&[0, 1, 2, 4]),
        }
    }

    /// A request for a file with some records of every type.
    pub fn full_request(&mut self) -> Request {
        let sites = self.random.between(2, 4) as usize;
        Request { sites, periods: 2, one_time_sites: 1, ..self.request() }
    }

    /// A valid file.
    pub fn valid(&mut self, request: &Request) -> Draft {
        let mut plans = Vec::new();
        self.plan_cancels(request, &mut plans);
        for _ in 0..request.sites {
            self.plan_originals(request, &mut plans);
        }
        for _ in 0..request.one_time_sites {
            self.plan_one_time_charges(request, &mut plans);
        }
        if plans.is_empty() {
            self.plan_one_time_charges(request, &mut plans);
        }
        if self.style == Style::Varied && self.random.percent(15) {
            self.split_a_site(&mut plans);
        }
        self.draft(request, &plans)
    }

    /// A valid file of exactly so many lines, at least 10.
    pub fn valid_of_lines(&mut self, request: &Request, lines: usize) -> Draft {
        let mut plans = Vec::new();
        let mut left = lines - 2;
        loop {
            let course = self.new_site(request);
            let plan = self.original_periods(request, course);
            if plan.lines() + 4 > left {
                break;
            }
            left -= plan.lines();
            plans.push(plan);
        }
        let course = self.new_site(request);
        let days = self.next_days(request, course);
        let mut plan = SitePlan::new(self.courses[course].site);
        let period = self.content(request.commodity).period_of_lines(plan.site, days, left - 1);
        plan.billing_period = Some(days);
        plan.periods.push(Item { body: period, cancels: None });
        plans.push(plan);
        self.draft(request, &plans)
    }

    /// A valid file of exactly so many lines and one site, the lines spread
    /// evenly over the request's periods, at least 3 for each.
    pub fn valid_of_one_site(&mut self, request: &Request, lines: usize) -> Draft {
        let course = self.new_site(request);
        let first_day = self.courses[course].next_day;
        let mut plan = SitePlan::new(self.courses[course].site);
        let lines_of_periods = lines - 3;
        for number in 0..request.periods {
            let one_more = usize::from(number < lines_of_periods % request.periods);
            let lines = lines_of_periods / request.periods + one_more;
            let days = self.next_days(request, course);
            let body = self.content(request.commodity).period_of_lines(plan.site, days, lines);
            plan.periods.push(Item { body, cancels: None });
        }
        plan.billing_period = Some((first_day, self.courses[course].next_day - 1));
        self.draft(request, &[plan])
    }

    /// A valid file of so many original periods, each of a site of its own,
    /// which earlier files may have billed, with one usage and one charge.
    pub fn valid_of_periods(&mut self, request: &Request, periods: usize) -> Draft {
        let mut plans = Vec::new();
        for _ in 0..periods {
            let course = self.site_to_bill(request, &plans);
            let days = self.next_days(request, course);
            let mut plan = SitePlan::new(self.courses[course].site);
            let body = self.content(request.commodity).period_of_lines(plan.site, days, 3);
            plan.billing_period = Some(days);
            plan.periods.push(Item { body, cancels: None });
            plans.push(plan);
        }
        self.draft(request, &plans)
    }

    /// A valid file of one site and so many original one-time charges.
    pub fn valid_of_charges(&mut self, request: &Request, charges: usize) -> Draft {
        let course = self.new_site(request);
        let SiteCourse { site, next_day, .. } = self.courses[course];
        let mut plan = SitePlan::new(site);
        for _ in 0..charges {
            let body = OneTimeCharge::any(&mut self.random, site, next_day);
            plan.one_time_charges.push(Item { body, cancels: None });
        }
        self.draft(request, &[plan])
    }

    /// A valid file that cancels all originals of the sender and commodity
    /// that were accepted, without rebills.
    pub fn valid_of_cancels(&mut self, request: &Request) -> Draft {
        let sender = self.senders[request.sender];
        let mut plans = Vec::new();
        for sent in &self.sent {
            if sent.sender != sender || sent.commodity != request.commodity {
                continue;
            }
            let cancels = Some(sent.record_id);
            match sent.original.clone() {
                Original::Period(body) => {
                    plan_of_site(&mut plans, body.site).periods.push(Item { body, cancels });
                }
                Original::OneTime(body) => {
                    let plan = plan_of_site(&mut plans, body.site);
                    plan.one_time_charges.push(Item { body, cancels });
                }
            }
        }
        self.draft(request, &plans)
    }

    /// Takes note that a file was accepted, so that later ones may cancel its
    /// originals.
    pub fn accept(&mut self, draft: &Draft) {
        self.sent.retain(|sent| {
            sent.sender != draft.sender || !draft.cancelled.contains(&sent.record_id)
        });
        self.sent.extend(draft.originals.iter().cloned());
    }

    /// Forgets the accepted files, as a new ledger begins.
    pub fn begin_ledger(&mut self) {
        self.sent.clear();
    }

    /// A file's bytes, in the varied style with either line end, and the last
    /// line with or without its end.
    pub fn write(&mut self, draft: &Draft) -> Vec<u8> {
        if self.style == Style::Sample {
            return draft.plain_bytes();
        }
        let ends_last = self.random.percent(70);
        let returns = self.random.pick(&[0, 100, 50]);
        let random = &mut self.random;
        let line_end = || match random.percent(returns) {
            true => LineEnd::ReturnAndFeed,
            false => LineEnd::Feed,
        };
        draft.write(line_end, ends_last)
    }

    /// Cancels of earlier originals, most with a rebill.
    fn plan_cancels(&mut self, request: &Request, plans: &mut Vec<SitePlan>) {
        let sender = self.senders[request.sender];
        let can_be_cancelled =
            |sent: &Sent| sent.sender == sender && sent.commodity == request.commodity;
        let mut open: Vec<usize> =
            (0..self.sent.len()).filter(|&place| can_be_cancelled(&self.sent[place])).collect();
        for _ in 0..request.cancels.min(open.len()) {
            let place = open.swap_remove(self.random.place(open.len()));
            let sent = self.sent[place].clone();
            let rebills = self.style == Style::Sample || self.random.percent(70);
            match sent.original {
                Original::Period(period) => {
                    self.plan_period_cancel(request, plans, sent.record_id, period, rebills);
                }
                Original::OneTime(charge) => {
                    self.plan_one_time_cancel(plans, sent.record_id, charge, rebills);
                }
            }
        }
    }

    fn plan_period_cancel(
        &mut self,
        request: &Request,
        plans: &mut Vec<SitePlan>,
        record_id: u64,
        period: TariffBillPeriod,
        rebills: bool,
    ) {
        let rebill = self.content(request.commodity).period(period.site, period.days);
        let mut items = vec![Item { body: period, cancels: Some(record_id) }];
        if rebills {
            items.push(Item { body: rebill, cancels: None });
        }
        if self.style == Style::Varied && self.random.percent(30) {
            items.reverse();
        }
        plan_of_site(plans, items[0].body.site).periods.extend(items);
    }

    fn plan_one_time_cancel(
        &mut self,
        plans: &mut Vec<SitePlan>,
        record_id: u64,
        charge: OneTimeCharge,
        rebills: bool,
    ) {
        let rebill = OneTimeCharge::any(&mut self.random, charge.site, charge.day);
        let plan = plan_of_site(plans, charge.site);
        plan.one_time_charges.push(Item { body: charge, cancels: Some(record_id) });
        if rebills {
            plan.one_time_charges.push(Item { body: rebill, cancels: None });
        }
    }

    /// Original periods of a site, added to what is already planned for it.
    fn plan_originals(&mut self, request: &Request, plans: &mut Vec<SitePlan>) {
        let course = self.site_to_bill(request, plans);
        let plan = self.original_periods(request, course);
        let planned = plan_of_site(plans, plan.site);
        planned.billing_period = plan.billing_period;
        planned.periods.extend(plan.periods);
        planned.one_time_charges.extend(plan.one_time_charges);
    }

    /// Original periods of a site, one after the other from its next day on.
    fn original_periods(&mut self, request: &Request, course: usize) -> SitePlan {
        let site = self.courses[course].site;
        let first_day = self.courses[course].next_day;
        let mut plan = SitePlan::new(site);
        if self.style == Style::Varied && self.random.percent(25) {
            plan.periods.extend(self.overlapping_period(request, site, first_day));
        }
        for _ in 0..request.periods {
            let days = self.next_days(request, course);
            let body = self.content(request.commodity).period(site, days);
            plan.periods.push(Item { body, cancels: None });
        }
        let last_day = self.courses[course].next_day - 1;
        let unbilled = self.style == Style::Varied && self.random.percent(10);
        plan.billing_period = (!unbilled).then_some((first_day, last_day));
        if self.random.percent(30) {
            let day = self.random.between(first_day.into(), last_day.into()) as u32;
            let body = OneTimeCharge::any(&mut self.random, site, day);
            plan.one_time_charges.push(Item { body, cancels: None });
        }
        plan
    }

    /// An original that begins before the current billing period, and so may
    /// share days with earlier ones or with the period's own.
    fn overlapping_period(
        &mut self,
        request: &Request,
        site: u64,
        first_day: u32,
    ) -> Option<Item<TariffBillPeriod>> {
        let start = first_day.checked_sub(self.random.between(1, 45) as u32)?;
        let days = (start, start + self.random.between(0, 50) as u32);
        let body = self.content(request.commodity).period(site, days);
        Some(Item { body, cancels: None })
    }

    fn plan_one_time_charges(&mut self, request: &Request, plans: &mut Vec<SitePlan>) {
        let course = self.site_to_bill(request, plans);
        let SiteCourse { site, next_day, .. } = self.courses[course];
        let count = self.random.between(1, 3);
        for _ in 0..count {
            let body = OneTimeCharge::any(&mut self.random, site, next_day.saturating_sub(1));
            plan_of_site(plans, site).one_time_charges.push(Item { body, cancels: None });
        }
    }

    /// Moves the later periods of a site under a second Site Header.
    fn split_a_site(&mut self, plans: &mut Vec<SitePlan>) {
        let place = self.random.place(plans.len());
        let plan = &mut plans[place];
        let mut second = SitePlan::new(plan.site);
        second.periods = plan.periods.split_off(plan.periods.len() / 2);
        if second.periods.is_empty() || plan.periods.is_empty() {
            plan.periods.append(&mut second.periods);
            return;
        }
        plans.push(second);
    }

    /// A site of the commodity with days left, often an earlier one, that no
    /// plan of this file bills yet.
    fn site_to_bill(&mut self, request: &Request, plans: &[SitePlan]) -> usize {
        for _ in 0..3 {
            let fresh = request.periods > FEW_PERIODS || self.random.percent(35);
            if fresh || self.courses.is_empty() {
                break;
            }
            let place = self.random.place(self.courses.len());
            let course = &self.courses[place];
            let is_billed =
                plans.iter().any(|plan| plan.site == course.site && plan.billing_period.is_some());
            let has_days_left = course.next_day + 200 < LAST_DAY;
            if course.commodity == request.commodity && !is_billed && has_days_left {
                return place;
            }
        }
        self.new_site(request)
    }

    fn new_site(&mut self, request: &Request) -> usize {
        let number = self.courses.len() as u64;
        let many_periods = request.periods > FEW_PERIODS;
        let (site, next_day) = match self.style {
            Style::Sample => (20_000_001_003 + number * 1_003, 8_766),
            Style::Varied => (
                self.random.pick(&[0, 20_000_000_000, 9_999_999_000_000]) + number,
                self.random.between(0, if many_periods { 500 } else { 36_000 }) as u32,
            ),
        };
        self.courses.push(SiteCourse { site, commodity: request.commodity, next_day });
        self.courses.len() - 1
    }

    /// The next days of a site's course: a month or so, sometimes a day, and
    /// less if many periods are to find room in the calendar.
    fn next_days(&mut self, request: &Request, course: usize) -> Days {
        let length = match self.style {
            Style::Sample => self.random.between(28, 33) as u32,
            Style::Varied => self.random.pick(&[1, 2, 27, 31, 40]),
        };
        let most = match request.periods > FEW_PERIODS {
            true => 25_000 / request.periods as u32,
            false => length,
        };
        let length = length.min(most);
        let start = self.courses[course].next_day;
        self.courses[course].next_day = start + length;
        (start, start + length - 1)
    }

    fn content(&mut self, commodity: Commodity) -> ContentBuilder<'_> {
        ContentBuilder { random: &mut self.random, commodity }
    }

    /// Writes plans as records, with Record IDs, Parent IDs and totals.
    fn draft(&mut self, request: &Request, plans: &[SitePlan]) -> Draft {
        let mut draft = Draft {
            sender: self.senders[request.sender],
            commodity: request.commodity,
            records: Vec::new(),
            originals: Vec::new(),
            cancelled: Vec::new(),
        };
        let file_id = self.next_id(request.sender);
        draft.records.push(self.file_header(&draft, file_id, plans));
        for plan in plans {
            let site_id = self.next_id(request.sender);
            draft.records.push(site_header(&draft, (site_id, file_id), plan, plans));
            for item in &plan.periods {
                self.push_period(&mut draft, request.sender, site_id, item);
            }
            for item in &plan.one_time_charges {
                self.push_one_time_charge(&mut draft, request.sender, site_id, item);
            }
        }
        let trailer_id = self.next_id(request.sender);
        let mut trailer = DraftRecord::new(RecordType::FileTrailer);
        set_ids(&mut trailer, trailer_id, file_id);
        trailer.set(4, (draft.records.len() + 1).to_string());
        trailer.set(5, amount_text(plans.iter().map(SitePlan::charge).sum(), 2));
        draft.records.push(trailer);
        if self.style == Style::Varied {
            self.vary_codes(&mut draft);
            self.vary_conditional_fields(&mut draft);
            self.vary_notation(&mut draft);
        }
        draft
    }

    fn file_header(&mut self, draft: &Draft, file_id: u64, plans: &[SitePlan]) -> DraftRecord {
        let periods = plans.iter().flat_map(|plan| &plan.periods);
        let charges = plans.iter().flat_map(|plan| &plan.one_time_charges);
        let last_days =
            periods.map(|item| item.body.days.1).chain(charges.map(|item| item.body.day));
        let created = last_days.max().map_or(0, |day| (day + 2).min(LAST_DAY));
        let mut header = DraftRecord::new(RecordType::FileHeader);
        header.set(1, file_id.to_string());
        header.set(4, format!("{RETAILER:09}"));
        header.set(5, format!("{:04}", draft.sender));
        header.set(6, draft.commodity.code());
        header.set(7, format!("{}{:02}3000", date(created), self.random.below(24)));
        header.set(8, "CYCLE01");
        header
    }

    fn push_period(
        &mut self,
        draft: &mut Draft,
        sender: usize,
        site_id: u64,
        item: &Item<TariffBillPeriod>,
    ) {
        let period_id = self.next_id(sender);
        let mut records = period_records(&item.body, draft.commodity, item.cancels);
        set_ids(&mut records[0], period_id, site_id);
        for record in &mut records[1..] {
            set_ids(record, self.next_id(sender), period_id);
        }
        draft.records.append(&mut records);
        note(draft, period_id, item.cancels, || Original::Period(item.body.clone()));
    }

    fn push_one_time_charge(
        &mut self,
        draft: &mut Draft,
        sender: usize,
        site_id: u64,
        item: &Item<OneTimeCharge>,
    ) {
        let charge_id = self.next_id(sender);
        let mut record = one_time_record(&item.body, draft.commodity, item.cancels);
        set_ids(&mut record, charge_id, site_id);
        draft.records.push(record);
        note(draft, charge_id, item.cancels, || Original::OneTime(item.body.clone()));
    }

    fn next_id(&mut self, sender: usize) -> u64 {
        let record_id = self.next_record_ids[sender];
        self.next_record_ids[sender] += 1;
        record_id
    }

    /// Gives periods any Site Status Code, some usage of cumulative meters
    /// another Meter Type Code, and demand that is a ratchet the code of any of
    /// the four, or one that is none. Of the tests only 6 reads them.
    fn vary_codes(&mut self, draft: &mut Draft) {
        let random = &mut self.random;
        for record in &mut draft.records {
            let record_type = record.record_type;
            if let Some(number) = record_type.site_status_field() {
                record.set(number, random.pick(&["E", "E", "E", "D", "I", "e"]));
            }
            if let Some(number) = record_type.meter_type_field() {
                if record.field(number) == "C" && random.percent(20) {
                    record.set(number, random.pick(&["I", "U", "c"]));
                }
            }
            if let Some(number) = record_type.demand_type_field() {
                if record.field(number) == "4100" {
                    let codes = ["4100", "4110", "4120", "4200", "4130", "-4100"];
                    record.set(number, random.pick(&codes));
                }
            }
        }
    }

    /// Leaves out a third of the conditional fields that no condition asks for,
    /// and fills a third of them, asked for or not.
    fn vary_conditional_fields(&mut self, draft: &mut Draft) {
        for place in 0..draft.records.len() {
            let record_type = draft.records[place].record_type;
            for number in varied_fields(record_type) {
                match self.random.below(3) {
                    0 if !draft.asks_for(place, number) => draft.records[place].set(number, ""),
                    1 => fill(&mut self.random, &mut draft.records[place], number),
                    _ => {}
                }
            }
        }
    }

    /// Writes some IDs and amounts in other forms of the same value.
    fn vary_notation(&mut self, draft: &mut Draft) {
        for record in &mut draft.records {
            for (field, description) in record.fields.iter_mut().zip(record.record_type.fields()) {
                if field.is_empty() || !self.random.percent(8) {
                    continue;
                }
                match description.field_type {
                    FieldType::RecordId => *field = format!("{field:0>15}"),
                    FieldType::Number(precision, places) => {
                        *field = self.vary_number(field, precision, places);
                    }
                    _ => {}
                }
            }
        }
    }

    /// A number in another form: with leading zeros, with all its places, or
    /// with a minus before its zero.
    fn vary_number(&mut self, number: &str, precision: u32, places: u32) -> String {
        let (sign, magnitude) = match number.strip_prefix('-') {
            Some(magnitude) => ("-", magnitude),
            None => ("", number),
        };
        let (whole, fraction) = magnitude.split_once('.').unwrap_or((magnitude, ""));
        let is_zero = magnitude.bytes().all(|byte| matches!(byte, b'0' | b'.'));
        let sign = if is_zero && self.random.percent(50) { "-" } else { sign };
        let whole_digits = (precision - places) as usize;
        let whole = match self.random.percent(50) {
            true => format!("{whole:0>whole_digits$}"),
            false => whole.to_owned(),
        };
        if places == 0 || (fraction.is_empty() && self.random.percent(50)) {
            return format!("{sign}{whole}");
        }
        format!("{sign}{whole}.{fraction:0<width$}", width = places as usize)
    }
}

/// The numbers of the conditional fields whose values no test reads, but that of
/// a cancel's Reference ID. SH's billing dates are none: test 18 reads them.
fn varied_fields(record_type: RecordType) -> impl Iterator<Item = usize> {
    let is_date = move |number: usize| {
        record_type.period_fields().is_some_and(|(start, end)| number == start || number == end)
    };
    let numbered = record_type.fields().iter().zip(1..);
    let conditional = numbered.filter(|(field, _)| field.mark == Mark::Conditional);
    conditional.map(|(_, number)| number).filter(move |&number| !is_date(number))
}

/// Makes an amount 0, and fills a field that is empty if test 6 can ask for it.
fn fill(random: &mut Random, record: &mut DraftRecord, number: usize) {
    let field_type = record.record_type.fields()[number - 1].field_type;
    let can_be_asked_for = condition_of(record.record_type, number).is_some();
    match field_type {
        FieldType::Number(..) => record.set(number, some_zero(random, field_type)),
        _ if can_be_asked_for && record.field(number).is_empty() => {
            record.set(number, some_text(random, field_type));
        }
        _ => {}
    }
}

/// A zero that fits a Number(p,s).
fn some_zero(random: &mut Random, field_type: FieldType) -> &'static str {
    match field_type {
        FieldType::Number(_, 2..) => random.pick(&["0", "-0", "0.00", "-0.00"]),
        _ => random.pick(&["0", "-0"]),
    }
}

/// Text that fits a type other than Number(p,s).
fn some_text(random: &mut Random, field_type: FieldType) -> String {
    match field_type {
        FieldType::Digits(length) | FieldType::Char(length) => "0".repeat(length),
        FieldType::Date => "20240101".to_owned(),
        FieldType::DateTime => "20240101103000".to_owned(),
        _ => random.below(5_000).to_string(),
    }
}

/// The plan of a site without a billing period yet, added if there is none.
fn plan_of_site(plans: &mut Vec<SitePlan>, site: u64) -> &mut SitePlan {
    let place = plans.iter().position(|plan| plan.site == site).unwrap_or_else(|| {
        plans.push(SitePlan::new(site));
        plans.len() - 1
    });
    &mut plans[place]
}

/// A Site Header, its totals over all plans of its site.
fn site_header(
    draft: &Draft,
    (site_id, file_id): (u64, u64),
    plan: &SitePlan,
    plans: &[SitePlan],
) -> DraftRecord {
    let of_site = || plans.iter().filter(|other| other.site == plan.site);
    let mut header = DraftRecord::new(RecordType::SiteHeader);
    set_ids(&mut header, site_id, file_id);
    header.set(4, format!("{:013}", plan.site));
    if let Some((start, end)) = plan.billing_period {
        header.set(5, date(start));
        header.set(6, date(end));
    }
    header.set(7, format!("{:04}", draft.sender));
    header.set(8, "0001");
    header.set(9, "0098");
    header.set(11, "CYCLE01");
    header.set(12, amount_text(of_site().map(SitePlan::usage).sum(), 4));
    header.set(13, draft.commodity.usage_unit());
    header.set(14, amount_text(of_site().map(SitePlan::charge).sum(), 2));
    header.set(16, if plan.billing_period.is_some() { "2020" } else { "2070" });
    header
}

fn set_ids(record: &mut DraftRecord, record_id: u64, parent_id: u64) {
    record.set(1, record_id.to_string());
    record.set(2, parent_id.to_string());
}

/// Notes an original of a draft, or which record a cancel of it names.
fn note(draft: &mut Draft, record_id: u64, cancels: Cancels, original: impl Fn() -> Original) {
    match cancels {
        Some(reference) => draft.cancelled.push(reference),
        None => draft.originals.push(Sent {
            sender: draft.sender,
            commodity: draft.commodity,
            record_id,
            original: original(),
        }),
    }
}
