//! Reading, writing, joining and building beside the reference.

use crate::lent::{same, Answered, Lent, Outcome};
use reference::points::COUNT;
use reference::random::Random;
use reference::{sheet, Pool, Reason};
use vadivuzhen::raw::{self, BuildAnswer, JoinAnswer, ReadAnswer, WriteAnswer};

/// How many tables a sheet is read into, beside that of the points.
pub const TABLES: usize = 9;

/// The lengths of the tables that a sheet is read into.
#[derive(Clone, Copy)]
pub struct Lengths {
    /// Of the points.
    pub points: usize,
    /// Of the fields, and of the shuffle.
    pub tables: [usize; TABLES],
}

/// The tables of a pool's points and fields, and its shuffle.
pub struct Tables {
    points: Lent<u16>,
    ids: Lent<u32>,
    donor_blood: Lent<u8>,
    patient_blood: Lent<u8>,
    donor_age: Lent<u8>,
    patient_age: Lent<u8>,
    donor_antigens: Lent<u64>,
    patient_antigens: Lent<u64>,
    patient_antibodies: Lent<u64>,
    shuffle: Lent<u16>,
}

impl Tables {
    /// Tables to be filled, of these lengths.
    fn empty(random: &mut Random, lengths: Lengths) -> Tables {
        let Lengths {
            points,
            tables: lengths,
        } = lengths;
        Tables {
            points: Lent::empty(random, points),
            ids: Lent::empty(random, lengths[0]),
            donor_blood: Lent::empty(random, lengths[1]),
            patient_blood: Lent::empty(random, lengths[2]),
            donor_age: Lent::empty(random, lengths[3]),
            patient_age: Lent::empty(random, lengths[4]),
            donor_antigens: Lent::empty(random, lengths[5]),
            patient_antigens: Lent::empty(random, lengths[6]),
            patient_antibodies: Lent::empty(random, lengths[7]),
            shuffle: Lent::empty(random, lengths[8]),
        }
    }

    /// The tables of a pool, whatever they hold.
    fn of(random: &mut Random, pool: &Pool) -> Tables {
        Tables {
            points: Lent::of(random, &pool.points),
            ids: Lent::of(random, &pool.ids),
            donor_blood: Lent::of(random, &pool.donor_bloods),
            patient_blood: Lent::of(random, &pool.patient_bloods),
            donor_age: Lent::of(random, &pool.donor_ages),
            patient_age: Lent::of(random, &pool.patient_ages),
            donor_antigens: Lent::of(random, &pool.donor_antigens),
            patient_antigens: Lent::of(random, &pool.patient_antigens),
            patient_antibodies: Lent::of(random, &pool.patient_antibodies),
            shuffle: Lent::of(random, &pool.shuffle),
        }
    }

    fn read(&self) -> raw::Fields<'_> {
        raw::Fields {
            ids: self.ids.read(),
            donor_blood: self.donor_blood.read(),
            patient_blood: self.patient_blood.read(),
            donor_age: self.donor_age.read(),
            patient_age: self.patient_age.read(),
            donor_antigens: self.donor_antigens.read(),
            patient_antigens: self.patient_antigens.read(),
            patient_antibodies: self.patient_antibodies.read(),
        }
    }

    fn fill(&mut self) -> raw::LentPool<'_> {
        raw::LentPool {
            points: self.points.fill(),
            ids: self.ids.fill(),
            donor_blood: self.donor_blood.fill(),
            patient_blood: self.patient_blood.fill(),
            donor_age: self.donor_age.fill(),
            patient_age: self.patient_age.fill(),
            donor_antigens: self.donor_antigens.fill(),
            patient_antigens: self.patient_antigens.fill(),
            patient_antibodies: self.patient_antibodies.fill(),
            shuffle: self.shuffle.fill(),
        }
    }

    /// The tables start with this pool's, and nothing else changed. A pool of
    /// version 1 has no points: there the table of them is as it was.
    fn filled(&mut self, pool: &Pool) -> Outcome {
        self.points.filled("points", &pool.points)?;
        self.ids.filled("ids", &pool.ids)?;
        self.donor_blood.filled("donor_blood", &pool.donor_bloods)?;
        self.patient_blood
            .filled("patient_blood", &pool.patient_bloods)?;
        self.donor_age.filled("donor_age", &pool.donor_ages)?;
        self.patient_age.filled("patient_age", &pool.patient_ages)?;
        self.donor_antigens
            .filled("donor_antigens", &pool.donor_antigens)?;
        self.patient_antigens
            .filled("patient_antigens", &pool.patient_antigens)?;
        self.patient_antibodies
            .filled("patient_antibodies", &pool.patient_antibodies)?;
        self.shuffle.filled("shuffle", &pool.shuffle)
    }

    /// Nothing changed.
    fn unchanged(&mut self) -> Outcome {
        self.filled(&Pool::default())
    }
}

/// Any number of entries past those that are due, often none.
pub fn more(random: &mut Random) -> usize {
    random.below(5).saturating_sub(1)
}

/// The length of a table of points that suffices: in version 1 any.
fn enough_points(random: &mut Random, version: u16) -> usize {
    match version {
        1 => random.below(COUNT + 3),
        _ => COUNT + more(random),
    }
}

/// Lengths that suffice for a pool.
pub fn enough(random: &mut Random, pool: &Pool) -> Lengths {
    Lengths {
        points: enough_points(random, pool.version),
        tables: [(); TABLES].map(|()| pool.len() + more(random)),
    }
}

/// The pool as a caller may lend it to be written and built: its points in a
/// table that may be longer than it need be, in version 1 any table.
pub fn lend(random: &mut Random, pool: &Pool) -> Pool {
    let mut lent = pool.clone();
    let length = enough_points(random, pool.version);
    lent.points.resize_with(length, || random.bits() as u16);
    lent
}

/// Reads a sheet into tables of these lengths.
pub fn reads(random: &mut Random, bytes: &[u8], lengths: Lengths) -> Answered {
    let mut lent = Lent::of(random, bytes);
    let mut tables = Tables::empty(random, lengths);
    let answer = raw::read(lent.read(), tables.fill());
    lent.unchanged("the sheet")?;

    let Lengths {
        points,
        tables: nine,
    } = lengths;
    let fitting = |pool: Pool| sheet::fits(&pool, points, &nine).map(|()| pool);
    match reference::read(bytes).and_then(fitting) {
        Ok(pool) => {
            let expected = ReadAnswer {
                version: pool.version,
                pairs: pool.len(),
                ..ReadAnswer::default()
            };
            same("the answer", answer, expected)?;
            tables.filled(&pool)?;
            Ok(0)
        }
        Err(refusal) => {
            let (number, place) = refusal.pair();
            let expected = ReadAnswer {
                refusal: number.into(),
                version: 0,
                place,
                pairs: 0,
            };
            same("the answer", answer, expected)?;
            tables.unchanged()?;
            Ok(number)
        }
    }
}

/// Writes the first `n` pairs of these tables, in that pool's version and with
/// its points, whatever they are, into a buffer of `room` bytes.
pub fn writes(random: &mut Random, n: usize, pool: &Pool, room: usize) -> Answered {
    let version = pool.version;
    let mut tables = Tables::of(random, pool);
    let mut out = Lent::empty(random, room);
    let answer = raw::write(
        version,
        n,
        tables.points.read(),
        tables.read(),
        tables.shuffle.read(),
        out.fill(),
    );
    tables.unchanged()?;

    let (points, fields) = (&pool.points, pool.fields());
    match reference::write(version, n, points, fields, &pool.shuffle, room) {
        Ok(bytes) => {
            let expected = WriteAnswer {
                refusal: 0,
                length: bytes.len(),
            };
            same("the answer", answer, expected)?;
            out.filled("the sheet", &bytes)?;
            Ok(0)
        }
        Err(refusal) => {
            let (number, place) = refusal.pair();
            let expected = WriteAnswer {
                refusal: number.into(),
                length: 0,
            };
            same("the answer", answer, expected)?;
            same("the place", 0, place)?;
            out.unchanged("the buffer")?;
            Ok(number)
        }
    }
}

/// Joins two sheets into a buffer of `room` bytes, and gives the sheet on which
/// both agree, or the refusal.
pub fn joins(
    random: &mut Random,
    first: &[u8],
    second: &[u8],
    room: usize,
) -> Result<Result<Vec<u8>, Reason>, String> {
    let mut lent_first = Lent::of(random, first);
    let mut lent_second = Lent::of(random, second);
    let mut out = Lent::empty(random, room);
    let answer = raw::join(lent_first.read(), lent_second.read(), out.fill());
    lent_first.unchanged("the first sheet")?;
    lent_second.unchanged("the second sheet")?;

    match reference::join(first, second, room) {
        Ok(bytes) => {
            let expected = JoinAnswer {
                length: bytes.len(),
                ..JoinAnswer::default()
            };
            same("the answer", answer, expected)?;
            out.filled("the joined sheet", &bytes)?;
            Ok(Ok(bytes))
        }
        Err(refusal) => {
            let (number, place) = refusal.pair();
            let expected = JoinAnswer {
                refusal: number.into(),
                place,
                length: 0,
            };
            same("the answer", answer, expected)?;
            out.unchanged("the buffer")?;
            Ok(Err(refusal.reason))
        }
    }
}

/// Builds the first `n` pairs of these tables, in that pool's version and with
/// its points, whatever they are, into M and W of these lengths.
pub fn builds(random: &mut Random, n: usize, pool: &Pool, m: usize, w: usize) -> Answered {
    let version = pool.version;
    let mut tables = Tables::of(random, pool);
    let (mut lent_m, mut lent_w) = (Lent::empty(random, m), Lent::empty(random, w));
    let answer = raw::build(
        version,
        n,
        tables.points.read(),
        tables.read(),
        lent_m.fill(),
        lent_w.fill(),
    );
    tables.unchanged()?;

    match reference::build(version, n, &pool.points, pool.fields(), m, w) {
        Ok(built) => {
            same("the answer", answer, BuildAnswer { refusal: 0 })?;
            lent_m.filled("M", &built.m)?;
            lent_w.filled("W", &built.w)?;
            Ok(0)
        }
        Err(reason) => {
            let refusal = reason.number().into();
            same("the answer", answer, BuildAnswer { refusal })?;
            lent_m.unchanged("M")?;
            lent_w.unchanged("W")?;
            Ok(reason.number())
        }
    }
}

/// M and W that the library builds of what it reads in this sheet, which is of
/// version 2 and has `n` pairs.
pub fn built_of_sheet(
    random: &mut Random,
    bytes: &[u8],
    n: usize,
) -> Result<(Vec<u8>, Vec<u16>), String> {
    let lengths = Lengths {
        points: COUNT,
        tables: [n; TABLES],
    };
    let mut read = Tables::empty(random, lengths);
    let answer = raw::read(bytes, read.fill());
    let expected = ReadAnswer {
        version: 2,
        pairs: n,
        ..ReadAnswer::default()
    };
    same("the answer of reading", answer, expected)?;
    let (mut m, mut w) = (vec![0; n * n], vec![0; n * n]);
    let points = read.points.read();
    let answer = raw::build(2, n, points, read.read(), &mut m, &mut w);
    same("the answer of building", answer, BuildAnswer { refusal: 0 })?;
    Ok((m, w))
}

/// A pool is written and read back, and its sheet read and written again, by
/// the library alone.
pub fn there_and_back(random: &mut Random, pool: &Pool) -> Outcome {
    let n = pool.len();
    let bytes = reference::write_pool(pool, sheet::LONGEST)
        .map_err(|refusal| format!("the reference refuses a sound pool: {refusal}"))?;

    let written = WriteAnswer {
        refusal: 0,
        length: bytes.len(),
    };
    let write = |version, tables: &Tables, out: &mut [u8]| {
        let (points, shuffle) = (tables.points.read(), tables.shuffle.read());
        raw::write(version, n, points, tables.read(), shuffle, out)
    };
    let tables = Tables::of(random, pool);
    let mut out = vec![0; bytes.len()];
    let answer = write(pool.version, &tables, &mut out);
    same("the answer of writing", answer, written)?;
    let lengths = Lengths {
        points: enough_points(random, pool.version),
        tables: [n; TABLES],
    };
    let mut read = Tables::empty(random, lengths);
    let answer = raw::read(&out, read.fill());
    let expected = ReadAnswer {
        version: pool.version,
        pairs: n,
        ..ReadAnswer::default()
    };
    same("the answer of reading", answer, expected)?;
    read.filled(pool)?;

    let mut again = vec![0; bytes.len()];
    let answer = write(answer.version, &read, &mut again);
    same("the answer of writing again", answer, written)?;
    same("the sheet that was read and written", again, bytes)
}
