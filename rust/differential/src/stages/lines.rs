//! Every public function through the probe program.
use super::{
    batches, column_lines, columns, convert, count, cuts, index, labels, lined_up, parts, patched_runs,
    patches, plans, rescue, salvage, varints, Session,
};
use crate::frames;
use crate::listed::{Call, LIST};
use crate::probe::Requests;
use model::random::Random;

impl Session {
    pub(super) fn probe_lines(&mut self) {
        let Some(mut probe) = self.probe.take() else { return };
        self.tally.stage("the probe program");
        let requests = &mut probe.requests;
        for line in ["", "0", "zz", "00", "07", "01", "0100", "06", "06000000000000000", "0G0000000000000000"]
        {
            requests.bad(line);
        }
        // 8,193 places are too many; a line of 65,538 characters is too long.
        requests.bad("0100000000000000000020010001");
        requests.bad(&"06".repeat(32_769));
        for entry in &LIST {
            let bytes = entry.bytes();
            match entry.call {
                Call::Run { signed } | Call::ReadBack { signed } => requests.run(&bytes, 0, signed, 512),
                Call::Stream { signed } => requests.stream(&bytes, 0, signed, 512),
                Call::Booleans { n } => requests.booleans(&bytes, 0, n as u64, 512),
                Call::Value { n } => requests.value(&bytes, 0, n as u64),
            }
        }
        for bit in 0..64 {
            for number in [1u64 << bit, (1 << bit) - 1, (1 << bit) + 1, u64::MAX >> bit] {
                requests.narrowest(number);
            }
        }
        cuts::probe_lines(requests, &mut self.random);
        patches::probe_lines(requests, &mut self.random);
        varints::probe_lines(requests, &mut self.random);
        patched_runs::fixed_lines(requests);
        labels::fixed_lines(requests);
        parts::fixed_lines(requests);
        count::fixed_lines(requests);
        index::fixed_lines(requests);
        salvage::fixed_lines(requests);
        let (tables, step) = self.size.pick((1, 37), (12, 5), (40, 1));
        salvage::damaged_tables(requests, tables, step, &mut self.random);
        convert::fixed_lines(requests, &mut self.random);
        column_lines::fixed_lines(requests);
        batches::fixed_lines(requests);
        lined_up::fixed_lines(requests);
        lined_up::fixed_written(requests);
        rescue::fixed_lines(requests);
        for turn in 0..self.size.pick(1_000, 100_000, 1_000_000) {
            probe_line(&mut probe.requests, &mut self.random);
            patched_runs::probe_line(&mut probe.requests, &mut self.random);
            labels::probe_line(&mut probe.requests, &mut self.random);
            parts::probe_line(&mut probe.requests, &mut self.random);
            count::probe_line(&mut probe.requests, &mut self.random);
            index::probe_line(&mut probe.requests, &mut self.random);
            salvage::probe_line(&mut probe.requests, &mut self.random);
            convert::probe_line(&mut probe.requests, &mut self.random);
            batches::probe_line(&mut probe.requests, &mut self.random);
            lined_up::probe_line(&mut probe.requests, &mut self.random);
            rescue::probe_line(&mut probe.requests, &mut self.random);
            // Their answers take the model long.
            if turn % 3 == 0 {
                columns::probe_line(&mut probe.requests, &mut self.random);
                plans::probe_line(&mut probe.requests, &mut self.random);
                lined_up::written_line(&mut probe.requests, &mut self.random);
            }
            probe.batch(&mut self.tally);
        }
        probe.flush(&mut self.tally);
        self.probe = Some(probe);
    }
}

/// Any request of the probe.
pub fn probe_line(requests: &mut Requests, random: &mut Random) {
    let signed = random.once_in(2);
    let places = random.pick(&[0, 1, 5, 12, 64, 512, 1000]);
    match random.below(16) {
        0..=3 => {
            let frame = frames::any_frame(random);
            requests.run(&frame, frames::any_position(frame.len(), random), signed, places);
        }
        4..=6 => {
            let stream = frames::any_stream(random);
            requests.stream(&stream, frames::any_position(stream.len(), random), signed, places);
        }
        7..=9 => {
            let bytes = frames::any_booleans(random);
            let n = if random.once_in(32) { random.any() } else { random.below(8 * bytes.len() + 40) as u64 };
            requests.booleans(
                &bytes,
                frames::any_position(bytes.len(), random),
                n,
                random.pick(&[0, 8, 64, 2000, 8192]),
            );
        }
        10 => {
            let bytes = frames::any_frame(random);
            let n = if random.once_in(8) { random.any() } else { random.below(bytes.len() + 3) as u64 };
            requests.value(&bytes, frames::any_position(bytes.len(), random), n);
        }
        11..=14 => {
            let (rows, form, width) = frames::any_rows(random);
            let places = random.pick(&[0, 2, 9, 40, 4200, 8192]);
            requests.write(&rows, signed, form, width, places);
        }
        _ => {
            let shift = random.below(64);
            let number = random.any() >> shift;
            requests.narrowest(number);
        }
    }
}
