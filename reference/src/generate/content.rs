//! What valid files are about: sites, tariff bill periods with their
//! determinants and charges, and one-time charges. All dates, readings and
//! calculated values agree with each other, and conditional fields are filled
//! where their condition holds.

use crate::bill::Commodity;
use crate::calendar::date_of;
use crate::file::RecordType;
use crate::generate::draft::{amount_text, DraftRecord};
use crate::generate::random::Random;

/// A start day and an end day.
pub type Days = (u32, u32);

/// A tariff bill period with its determinants and charges.
#[derive(Clone, Debug)]
pub struct TariffBillPeriod {
    /// The site.
    pub site: u64,
    /// The days.
    pub days: Days,
    /// The Usage Determinant records.
    pub usages: Vec<Usage>,
    /// The Demand Determinant records.
    pub demands: Vec<Demand>,
    /// The Miscellaneous Determinant records.
    pub miscellaneous: Vec<Miscellaneous>,
    /// The Tariff Charge records.
    pub charges: Vec<Charge>,
}

impl TariffBillPeriod {
    /// The sum of Usage Amount, four places.
    pub fn usage(&self) -> i64 {
        self.usages.iter().map(|usage| usage.amount).sum()
    }

    /// The sum of Charge Amount, two places.
    pub fn charge(&self) -> i64 {
        self.charges.iter().map(|charge| charge.amount).sum()
    }

    /// The number of records, its header included.
    pub fn lines(&self) -> usize {
        let determinants = self.usages.len() + self.demands.len() + self.miscellaneous.len();
        1 + determinants + self.charges.len()
    }
}

/// A Usage Determinant record.
#[derive(Clone, Debug)]
pub struct Usage {
    days: Days,
    meter_type: &'static str,
    meter: String,
    readings: Option<Readings>,
    amount: i64,
}

/// The readings of a cumulative meter.
#[derive(Clone, Debug)]
struct Readings {
    from: i64,
    to: i64,
    multiplier: i64,
}

/// A Demand Determinant record.
#[derive(Clone, Debug)]
pub struct Demand {
    days: Days,
    type_code: &'static str,
    value: i64,
    unit: &'static str,
    meter: String,
    ratchet_date_time: String,
    ratchet_months: &'static str,
    contract_end: String,
}

/// A Miscellaneous Determinant record.
#[derive(Clone, Debug)]
pub struct Miscellaneous {
    days: Days,
    quantity: i64,
    unit: &'static str,
    code: &'static str,
}

/// A Tariff Charge record.
#[derive(Clone, Debug)]
pub struct Charge {
    days: Days,
    category: &'static str,
    basis: &'static str,
    type_code: &'static str,
    quantity: i64,
    unit: &'static str,
    price: i64,
    amount: i64,
    gst_exempt: bool,
}

/// A One-Time Charge record.
#[derive(Clone, Debug)]
pub struct OneTimeCharge {
    /// The site.
    pub site: u64,
    /// The Charge Date.
    pub day: u32,
    /// The Charge Amount, two places.
    pub amount: i64,
    code: &'static str,
    gst_exempt: bool,
}

impl OneTimeCharge {
    /// Some one-time charge of a site.
    pub fn any(random: &mut Random, site: u64, day: u32) -> Self {
        OneTimeCharge {
            site,
            day,
            amount: random.between(1, 50_000) as i64 - 5_000,
            code: random.pick(&["CONN", "RECO", "TEST", "PPAC"]),
            gst_exempt: random.percent(20),
        }
    }
}

/// Four decimal places.
const SCALE: i64 = 10_000;

/// Builds the content of tariff bill periods.
pub struct ContentBuilder<'a> {
    /// Where choices come from.
    pub random: &'a mut Random,
    /// The commodity of the file.
    pub commodity: Commodity,
}

impl ContentBuilder<'_> {
    /// Some tariff bill period of a site with these days.
    pub fn period(&mut self, site: u64, days: Days) -> TariffBillPeriod {
        let meter_type = match self.commodity {
            Commodity::Electricity => self.random.pick(&["C", "C", "I", "U"]),
            Commodity::NaturalGas => self.random.pick(&["C", "C", "I", "U", "T", "S"]),
        };
        let meter = format!("M{:09}", site % 1_000_000_000);
        let usages = self.usages(days, meter_type, &meter);
        let has_demand = self.random.percent(50);
        let demands = if has_demand { self.demands(days, meter_type, &meter) } else { Vec::new() };
        let miscellaneous = self.miscellaneous(days);
        let used = usages.iter().map(|usage| usage.amount).sum();
        let charges = self.charges(days, used, &demands);
        TariffBillPeriod { site, days, usages, demands, miscellaneous, charges }
    }

    /// A period with one usage record, one charge and so many miscellaneous
    /// determinants.
    pub fn period_of_lines(&mut self, site: u64, days: Days, lines: usize) -> TariffBillPeriod {
        let meter = format!("M{:09}", site % 1_000_000_000);
        let usages = vec![self.usage(days, "C", &meter, 1_000)];
        let charges = vec![self.energy_charge(days, usages[0].amount)];
        let miscellaneous =
            (0..lines.saturating_sub(3)).map(|_| self.miscellaneous_record(days)).collect();
        TariffBillPeriod { site, days, usages, demands: Vec::new(), miscellaneous, charges }
    }

    /// Usage records that cover each day of the period once.
    fn usages(&mut self, days: Days, meter_type: &'static str, meter: &str) -> Vec<Usage> {
        let mut usages = Vec::new();
        let mut reading = self.random.between(0, 50_000) as i64;
        for part in self.parts(days) {
            let usage = self.usage(part, meter_type, meter, reading);
            reading = usage.readings.as_ref().map_or(reading, |readings| readings.to);
            usages.push(usage);
        }
        usages
    }

    /// The days cut into one to three parts without gaps.
    fn parts(&mut self, (start, end): Days) -> Vec<Days> {
        let mut parts = Vec::new();
        let mut from = start;
        while parts.len() < 2 && from < end && self.random.percent(30) {
            let to = self.random.between(from.into(), u64::from(end) - 1) as u32;
            parts.push((from, to));
            from = to + 1;
        }
        parts.push((from, end));
        parts
    }

    fn usage(&mut self, days: Days, meter_type: &'static str, meter: &str, from: i64) -> Usage {
        if meter_type != "C" {
            let amount = self.random.between(0, 30_000_000) as i64;
            return Usage { days, meter_type, meter: String::new(), readings: None, amount };
        }
        let used = self.random.between(0, 2_000) as i64;
        let multiplier = self.random.pick(&[1, 1, 10, 40]);
        Usage {
            days,
            meter_type,
            meter: meter.to_owned(),
            readings: Some(Readings { from, to: from + used, multiplier }),
            amount: used * multiplier * SCALE,
        }
    }

    fn demands(&mut self, days: Days, meter_type: &'static str, meter: &str) -> Vec<Demand> {
        let unit = match self.commodity {
            Commodity::Electricity => "KW",
            Commodity::NaturalGas => "GJ",
        };
        let value = self.random.between(1, 5_000_000) as i64;
        let billing = Demand {
            days,
            type_code: "4000",
            value,
            unit,
            meter: String::new(),
            ratchet_date_time: String::new(),
            ratchet_months: "",
            contract_end: String::new(),
        };
        let mut demands = vec![billing.clone()];
        if self.random.percent(40) {
            let meter = if meter_type == "C" { meter.to_owned() } else { String::new() };
            demands.push(Demand { type_code: "4080", meter, ..billing.clone() });
        }
        if self.random.percent(30) {
            let ratchet_date_time = format!("{}103000", date(days.0.saturating_sub(40)));
            demands.push(Demand {
                type_code: "4100",
                ratchet_date_time,
                ratchet_months: "12",
                ..billing.clone()
            });
        }
        if self.random.percent(30) {
            let contract_end = date((days.1 + 400).min(crate::calendar::LAST_DAY));
            demands.push(Demand { type_code: "4040", contract_end, ..billing });
        }
        demands
    }

    fn miscellaneous(&mut self, days: Days) -> Vec<Miscellaneous> {
        let count = self.random.pick(&[0, 0, 1, 2]);
        (0..count).map(|_| self.miscellaneous_record(days)).collect()
    }

    fn miscellaneous_record(&mut self, days: Days) -> Miscellaneous {
        if self.random.percent(30) {
            return Miscellaneous { days, quantity: SCALE, unit: "BFLAG", code: "EXMP" };
        }
        let quantity = self.random.between(0, 900_000) as i64;
        Miscellaneous { days, quantity, unit: "CDAY", code: "DAYS" }
    }

    fn charges(&mut self, days: Days, used: i64, demands: &[Demand]) -> Vec<Charge> {
        let mut charges = Vec::new();
        if self.random.percent(90) {
            charges.push(self.energy_charge(days, used));
        }
        if let Some(billing) = demands.first() {
            let price = self.random.between(100, 50_000) as i64;
            charges.push(Charge {
                category: "5004",
                basis: "D",
                type_code: "DMND",
                unit: billing.unit,
                ..self.charge(days, billing.value, price)
            });
        }
        if self.random.percent(40) {
            let price = self.random.between(1_000, 300_000) as i64;
            charges.push(Charge {
                category: "5003",
                basis: "F",
                type_code: "RIDR",
                unit: "SITE",
                ..self.charge(days, SCALE, price)
            });
        }
        charges
    }

    fn energy_charge(&mut self, days: Days, used: i64) -> Charge {
        let price = self.random.between(1, 2_500) as i64;
        self.charge(days, used, price)
    }

    /// A charge for an energy quantity, both factors with four places.
    fn charge(&mut self, days: Days, quantity: i64, price: i64) -> Charge {
        Charge {
            days,
            category: "5001",
            basis: "E",
            type_code: "ENGY",
            quantity,
            unit: self.commodity.usage_unit(),
            price,
            amount: (quantity * price + 500_000) / 1_000_000,
            gst_exempt: self.random.percent(10),
        }
    }
}

/// Who cancels: nobody, or the record with this Reference ID.
pub type Cancels = Option<u64>;

/// Writes the records of a tariff bill period, without Record IDs and Parent
/// IDs; a cancel has its amounts reversed.
pub fn period_records(
    period: &TariffBillPeriod,
    commodity: Commodity,
    cancels: Cancels,
) -> Vec<DraftRecord> {
    let writer = RecordWriter { site: period.site, commodity, cancels };
    let mut records = vec![writer.period_header(period)];
    records.extend(period.usages.iter().map(|usage| writer.usage(usage)));
    records.extend(period.demands.iter().map(|demand| writer.demand(demand)));
    records.extend(period.miscellaneous.iter().map(|record| writer.miscellaneous(record)));
    records.extend(period.charges.iter().map(|charge| writer.charge(charge)));
    records
}

/// Writes the record of a one-time charge, without Record ID and Parent ID; a
/// cancel has its amount reversed.
pub fn one_time_record(
    charge: &OneTimeCharge,
    commodity: Commodity,
    cancels: Cancels,
) -> DraftRecord {
    let writer = RecordWriter { site: charge.site, commodity, cancels };
    let mut record = writer.record(RecordType::OneTimeCharge);
    record.set(5, date(charge.day));
    record.set(6, writer.indicator());
    writer.set_reference(&mut record, 7, "3070");
    record.set(9, charge.code);
    record.set(10, writer.amount(charge.amount, 2));
    record.set(11, flag(charge.gst_exempt));
    record
}

/// What the records of one period or one-time charge have in common.
struct RecordWriter {
    site: u64,
    commodity: Commodity,
    cancels: Cancels,
}

impl RecordWriter {
    fn record(&self, record_type: RecordType) -> DraftRecord {
        let mut record = DraftRecord::new(record_type);
        record.set(4, format!("{:013}", self.site));
        record
    }

    /// A record with days and a Cancel Indicator.
    fn dated(&self, record_type: RecordType, (start, end): Days) -> DraftRecord {
        let mut record = self.record(record_type);
        record.set(5, date(start));
        record.set(6, date(end));
        record.set(7, self.indicator());
        record
    }

    fn indicator(&self) -> &'static str {
        flag(self.cancels.is_some())
    }

    /// Reference ID and Cancel Reason Code, if the record is a cancel.
    fn set_reference(&self, record: &mut DraftRecord, number: usize, reason: &str) {
        if let Some(reference) = self.cancels {
            record.set(number, reference.to_string());
            record.set(number + 1, reason);
        }
    }

    fn amount(&self, units: i64, places: u32) -> String {
        amount_text(if self.cancels.is_some() { -units } else { units }, places)
    }

    fn period_header(&self, period: &TariffBillPeriod) -> DraftRecord {
        let mut record = self.dated(RecordType::PeriodHeader, period.days);
        self.set_reference(&mut record, 8, "3030");
        record.set(10, "RATE1");
        record.set(11, "E");
        record.set(12, self.amount(period.usage(), 4));
        record.set(13, self.commodity.usage_unit());
        record.set(14, self.amount(period.charge(), 2));
        record
    }

    fn usage(&self, usage: &Usage) -> DraftRecord {
        let mut record = self.dated(RecordType::UsageDeterminant, usage.days);
        record.set(8, usage.meter_type);
        record.set(9, usage.meter.as_str());
        if let Some(readings) = &usage.readings {
            record.set(10, "6");
            record.set(11, readings.from.to_string());
            record.set(12, "A");
            record.set(13, readings.to.to_string());
            record.set(14, "A");
            record.set(15, readings.multiplier.to_string());
        }
        record.set(16, self.amount(usage.amount, 4));
        record.set(17, self.commodity.usage_unit());
        record
    }

    fn demand(&self, demand: &Demand) -> DraftRecord {
        let mut record = self.dated(RecordType::DemandDeterminant, demand.days);
        record.set(8, demand.type_code);
        record.set(9, self.amount(demand.value, 4));
        record.set(10, demand.unit);
        record.set(11, demand.meter.as_str());
        record.set(12, demand.ratchet_date_time.as_str());
        record.set(13, demand.ratchet_months);
        record.set(15, demand.contract_end.as_str());
        record
    }

    fn miscellaneous(&self, miscellaneous: &Miscellaneous) -> DraftRecord {
        let mut record = self.dated(RecordType::MiscellaneousDeterminant, miscellaneous.days);
        record.set(8, self.amount(miscellaneous.quantity, 4));
        record.set(9, miscellaneous.unit);
        record.set(10, miscellaneous.code);
        record
    }

    fn charge(&self, charge: &Charge) -> DraftRecord {
        let mut record = self.dated(RecordType::TariffCharge, charge.days);
        record.set(8, "XREF1");
        record.set(9, charge.category);
        record.set(10, charge.basis);
        record.set(11, charge.type_code);
        record.set(12, "1");
        record.set(13, self.amount(charge.quantity, 4));
        record.set(14, charge.unit);
        record.set(15, "P");
        record.set(16, "1");
        record.set(17, amount_text(charge.price, 4));
        record.set(18, self.amount(charge.amount, 2));
        record.set(19, flag(charge.gst_exempt));
        record
    }
}

/// Y or N.
fn flag(holds: bool) -> &'static str {
    if holds {
        "Y"
    } else {
        "N"
    }
}

/// The date of a day of the calendar.
pub fn date(day: u32) -> String {
    date_of(day).expect("generated days lie in the calendar")
}
