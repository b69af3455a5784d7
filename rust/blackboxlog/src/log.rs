use crate::archive::{self, Plan};
use crate::sys::{step, Handle, Reply, PLAN_WORDS};
use crate::{Error, Memory, Plain, Step};

/// Head, tail and capacity of a log.
#[derive(Clone, Copy, Debug, PartialEq, Eq, Hash)]
pub struct Numbers {
    /// The oldest kept position.
    pub head: u64,
    /// The next position to be written.
    pub tail: u64,
    /// How many bytes the log can keep.
    pub capacity: u64,
}

impl Numbers {
    /// How many bytes the log keeps: those at the positions from head to tail.
    ///
    /// ```
    /// use blackboxlog::Numbers;
    /// assert_eq!(Numbers { head: 5, tail: 13, capacity: 9 }.kept(), 8);
    /// ```
    pub fn kept(&self) -> u64 {
        self.tail - self.head
    }
}

/// A log, open on a medium, that keeps its handle: there is no old handle to use by mistake. For what stands on a medium that is not to be
/// changed see [`Reader`].
///
/// The medium is anything that lends its bytes: `&mut [u8]`, a [`Medium`](crate::Medium), a memory map.
///
/// ```
/// use blackboxlog::{Log, Medium};
///
/// let mut medium = Medium::zeroed(82).unwrap();
/// let mut log = Log::setup(&mut medium)?;
/// assert_eq!(log.append(b"voyage")?, 0);
/// log.advance(5)?;
/// assert_eq!(log.append(b" record")?, 6);
/// assert_eq!(log.read_vec(5, 8)?, b"e record");
/// # Ok::<(), blackboxlog::Error>(())
/// ```
#[derive(Debug)]
pub struct Log<B, M = Plain> {
    medium: B,
    memory: M,
    /// `None`: no log is open, or an operation is under way.
    handle: Option<Handle>,
}

impl<B: AsRef<[u8]> + AsMut<[u8]>> Log<B, Plain> {
    /// No log yet, on this medium: [`reopen`](Log::reopen) or [`begin_setup`](Log::begin_setup) follow.
    ///
    /// ```
    /// use blackboxlog::{Error, Log, Medium};
    ///
    /// let mut log = Log::on(Medium::zeroed(100).unwrap());
    /// assert_eq!(log.append(b"x"), Err(Error::NotOpen));
    /// assert_eq!(log.reopen(), Err(Error::BadSelector { found: 0 }));
    /// ```
    pub fn on(medium: B) -> Self {
        Log::on_with(medium, Plain)
    }

    /// Opens the log that stands on the medium, in memory that needs no flush.
    ///
    /// ```
    /// use blackboxlog::{Log, Medium};
    ///
    /// let mut medium = Medium::zeroed(100).unwrap();
    /// Log::setup(&mut medium)?.append(b"door 4 open")?;
    /// let log = Log::open(&mut medium)?;
    /// assert_eq!(log.ask()?.tail, 11);
    /// # Ok::<(), blackboxlog::Error>(())
    /// ```
    pub fn open(medium: B) -> Result<Self, Error> {
        Log::open_with(medium, Plain)
    }

    /// Sets up an empty log, whatever stands on the medium, in memory that needs no flush.
    ///
    /// What a power cut during it leaves depends on what stood there. The selector names the second header, or neither: what stood there, or the
    /// new log. A log whose first header is live: that log, the new one, or [`BadChecksum`](Error::BadChecksum). The selector names the first
    /// header and there is no log: any mixture of the four pieces of the old header and the new one, which can be a log that never was; to rule
    /// that out, store 0 in the selector first, as one aligned store of 8 bytes, and flush.
    ///
    /// Refused: [`Misaligned`](Error::Misaligned), [`TooShort`](Error::TooShort).
    ///
    /// ```
    /// use blackboxlog::{Error, Log, Medium};
    ///
    /// assert_eq!(Log::setup(Medium::zeroed(82).unwrap())?.ask()?.capacity, 9);
    /// assert_eq!(Log::setup(Medium::zeroed(72).unwrap()).unwrap_err(), Error::TooShort { required: 73 });
    /// # Ok::<(), Error>(())
    /// ```
    pub fn setup(medium: B) -> Result<Self, Error> {
        Log::setup_with(medium, Plain)
    }
}

impl<B: AsRef<[u8]> + AsMut<[u8]>, M: Memory> Log<B, M> {
    /// As [`Log::on`], in this memory.
    ///
    /// ```
    /// use blackboxlog::{Log, Medium, Plain};
    /// let log = Log::on_with(Medium::zeroed(100).unwrap(), Plain);
    /// assert!(!log.is_open());
    /// ```
    pub fn on_with(medium: B, memory: M) -> Self {
        Log { medium, memory, handle: None }
    }

    /// As [`Log::open`], in this memory.
    ///
    /// ```
    /// use blackboxlog::{Log, Medium, Step};
    ///
    /// let mut medium = Medium::zeroed(100).unwrap();
    /// Log::setup(&mut medium)?;
    /// let mut written = Vec::new();
    /// let mut log = Log::open_with(&mut medium, |step: Step| match step {
    ///     Step::Written { at, bytes } => written.push((at, bytes.len())),
    ///     Step::Flush => {}
    /// })?;
    /// log.append(b"rudder 3 port")?;
    /// drop(log);
    /// assert_eq!(written[0], (72, 13)); // the bytes
    /// assert_eq!(written.last(), Some(&(0, 8))); // the selector
    /// # Ok::<(), blackboxlog::Error>(())
    /// ```
    pub fn open_with(medium: B, memory: M) -> Result<Self, Error> {
        let mut log = Log::on_with(medium, memory);
        log.reopen()?;
        Ok(log)
    }

    /// As [`Log::setup`], in this memory.
    ///
    /// ```
    /// use blackboxlog::{Log, Medium, Step};
    ///
    /// let mut medium = Medium::zeroed(100).unwrap();
    /// let mut flushes = 0;
    /// Log::setup_with(&mut medium, |step: Step| if step == Step::Flush { flushes += 1 })?;
    /// assert!(flushes >= 2); // after the header and after the selector
    /// # Ok::<(), blackboxlog::Error>(())
    /// ```
    pub fn setup_with(medium: B, memory: M) -> Result<Self, Error> {
        let mut log = Log::on_with(medium, memory);
        begin_setup(log.medium.as_mut(), &mut log.handle)?.finish(&mut log.memory)?;
        Ok(log)
    }

    /// Opens the medium once more: after an [`Operation`] that was not finished, or after [`Log::on`]. Everything that was written must be
    /// there for good before. Where the medium is a copy in memory of something else, as of a file, and a write did not reach that, reading
    /// it anew comes first.
    ///
    /// ```
    /// use blackboxlog::{Error, Log, Medium};
    ///
    /// let mut log = Log::setup(Medium::zeroed(100).unwrap())?;
    /// drop(log.begin_append(b"engine stopped")?);
    /// assert_eq!(log.ask(), Err(Error::NotOpen));
    /// log.reopen()?;
    /// assert_eq!(log.ask()?.tail, 0);
    /// # Ok::<(), Error>(())
    /// ```
    pub fn reopen(&mut self) -> Result<(), Error> {
        self.handle = None;
        archive::addresses(self.medium.as_ref(), &[])?;
        self.handle = Some(archive::open(self.medium.as_ref())?);
        Ok(())
    }

    /// Forgets the log, not the medium: from now on no log is open.
    ///
    /// ```
    /// use blackboxlog::{Error, Log, Medium};
    ///
    /// let mut log = Log::setup(Medium::zeroed(100).unwrap())?;
    /// log.close();
    /// assert_eq!(log.ask(), Err(Error::NotOpen));
    /// # Ok::<(), Error>(())
    /// ```
    pub fn close(&mut self) {
        self.handle = None;
    }

    /// Whether a log is open, and no operation was left before its end.
    ///
    /// ```
    /// use blackboxlog::{Log, Medium};
    /// assert!(Log::setup(Medium::zeroed(100).unwrap())?.is_open());
    /// # Ok::<(), blackboxlog::Error>(())
    /// ```
    pub fn is_open(&self) -> bool {
        self.handle.is_some()
    }

    /// Appends bytes at the tail, all of them or none, and answers the position of the first. A power cut leaves the log before or the log
    /// after; after, once this has answered.
    ///
    /// Refused: [`Misaligned`](Error::Misaligned), [`Overlap`](Error::Overlap), [`NotOpen`](Error::NotOpen), [`NoRoom`](Error::NoRoom).
    ///
    /// ```
    /// use blackboxlog::{Error, Log, Medium};
    ///
    /// let mut log = Log::setup(Medium::zeroed(82).unwrap())?;
    /// assert_eq!(log.append(b"abcdef")?, 0);
    /// assert_eq!(log.append(b"ghij"), Err(Error::NoRoom { room: 3 }));
    /// # Ok::<(), Error>(())
    /// ```
    pub fn append(&mut self, bytes: &[u8]) -> Result<u64, Error> {
        begin_append(self.medium.as_mut(), &mut self.handle, bytes)?.finish(&mut self.memory)
    }

    /// Advances the head to a position: what is before it is no longer kept. A power cut leaves the log before or the log after; after, once
    /// this has answered.
    ///
    /// Refused: [`Misaligned`](Error::Misaligned), [`NotOpen`](Error::NotOpen), [`BeforeHead`](Error::BeforeHead),
    /// [`BeyondTail`](Error::BeyondTail).
    ///
    /// ```
    /// use blackboxlog::{Error, Log, Medium};
    ///
    /// let mut log = Log::setup(Medium::zeroed(82).unwrap())?;
    /// log.append(b"abcdef")?;
    /// log.advance(5)?;
    /// assert_eq!(log.advance(4), Err(Error::BeforeHead { head: 5 }));
    /// assert_eq!(log.advance(7), Err(Error::BeyondTail { tail: 6 }));
    /// # Ok::<(), Error>(())
    /// ```
    pub fn advance(&mut self, position: u64) -> Result<(), Error> {
        begin_advance(self.medium.as_mut(), &mut self.handle, position)?.finish(&mut self.memory)?;
        Ok(())
    }

    /// Plans to set up an empty log, and hands out the steps. Unlike [`setup`](Log::setup) it leaves the memory to the caller.
    ///
    /// ```
    /// use blackboxlog::{Log, Medium};
    ///
    /// let mut log = Log::on(Medium::zeroed(82).unwrap());
    /// let mut setup = log.begin_setup()?;
    /// while let Some(step) = setup.step()? {
    ///     // write the step's bytes to a file, or sync it
    /// }
    /// assert_eq!(setup.answer()?, 9); // the capacity
    /// assert!(log.is_open());
    /// # Ok::<(), blackboxlog::Error>(())
    /// ```
    pub fn begin_setup(&mut self) -> Result<Operation<'_>, Error> {
        begin_setup(self.medium.as_mut(), &mut self.handle)
    }

    /// Plans to append bytes, and hands out the steps. Unlike [`append`](Log::append) it leaves the memory to the caller: for memory that can
    /// fail.
    ///
    /// ```
    /// use blackboxlog::{Log, Medium, Step};
    ///
    /// let mut log = Log::setup(Medium::zeroed(100).unwrap())?;
    /// let mut image = vec![0; 100];
    /// let mut append = log.begin_append(b"radar 7")?;
    /// while let Some(step) = append.step()? {
    ///     match step {
    ///         Step::Written { at, bytes } => image[at..at + bytes.len()].copy_from_slice(bytes),
    ///         Step::Flush => {} // and here a file would be synced
    ///     }
    /// }
    /// assert_eq!(append.answer()?, 0); // the position of the first byte
    /// # Ok::<(), blackboxlog::Error>(())
    /// ```
    pub fn begin_append<'a>(&'a mut self, bytes: &'a [u8]) -> Result<Operation<'a>, Error> {
        begin_append(self.medium.as_mut(), &mut self.handle, bytes)
    }

    /// Plans to advance the head, and hands out the steps. Unlike [`advance`](Log::advance) it leaves the memory to the caller.
    ///
    /// ```
    /// use blackboxlog::{Log, Medium};
    ///
    /// let mut log = Log::setup(Medium::zeroed(100).unwrap())?;
    /// log.append(b"radar 7")?;
    /// let mut advance = log.begin_advance(7)?;
    /// while let Some(step) = advance.step()? {}
    /// assert_eq!(log.ask()?.head, 7);
    /// # Ok::<(), blackboxlog::Error>(())
    /// ```
    pub fn begin_advance(&mut self, position: u64) -> Result<Operation<'_>, Error> {
        begin_advance(self.medium.as_mut(), &mut self.handle, position)
    }

    /// Reads as many bytes as `out` has from a position on. They are the bytes that stand on the medium: contents carry no checksum in this
    /// format. A refusal leaves `out` as it was.
    ///
    /// Refused: [`Misaligned`](Error::Misaligned), [`Overlap`](Error::Overlap), [`NotOpen`](Error::NotOpen),
    /// [`BeforeHead`](Error::BeforeHead), [`BeyondTail`](Error::BeyondTail).
    ///
    /// ```
    /// use blackboxlog::{Error, Log, Medium};
    ///
    /// let mut log = Log::setup(Medium::zeroed(100).unwrap())?;
    /// log.append(b"door 4 open")?;
    /// let mut out = [0; 4];
    /// log.read(7, &mut out)?;
    /// assert_eq!(&out, b"open");
    /// assert_eq!(log.read(8, &mut out), Err(Error::BeyondTail { tail: 11 }));
    /// # Ok::<(), Error>(())
    /// ```
    pub fn read(&self, position: u64, out: &mut [u8]) -> Result<(), Error> {
        archive::addresses(self.medium.as_ref(), out)?;
        archive::read(self.medium.as_ref(), self.handle()?, position, out)
    }

    /// Reads `length` bytes from a position on, into a new `Vec`. Refused as [`read`](Log::read) is, before anything is allocated.
    ///
    /// ```
    /// use blackboxlog::{Error, Log, Medium};
    ///
    /// let mut log = Log::setup(Medium::zeroed(100).unwrap())?;
    /// log.append(b"door 4 open")?;
    /// assert_eq!(log.read_vec(7, 4)?, b"open");
    /// assert_eq!(log.read_vec(0, u64::MAX), Err(Error::BeyondTail { tail: 11 }));
    /// # Ok::<(), Error>(())
    /// ```
    #[cfg(feature = "std")]
    pub fn read_vec(&self, position: u64, length: u64) -> Result<std::vec::Vec<u8>, Error> {
        read_vec(self.medium.as_ref(), self.handle()?, position, length)
    }

    /// Head, tail and capacity.
    ///
    /// ```
    /// use blackboxlog::{Log, Medium, Numbers};
    ///
    /// let mut log = Log::setup(Medium::zeroed(82).unwrap())?;
    /// log.append(b"abcdef")?;
    /// assert_eq!(log.ask()?, Numbers { head: 0, tail: 6, capacity: 9 });
    /// # Ok::<(), blackboxlog::Error>(())
    /// ```
    pub fn ask(&self) -> Result<Numbers, Error> {
        ask(self.medium.as_ref(), self.handle()?)
    }

    /// How many bytes can be appended now.
    ///
    /// ```
    /// use blackboxlog::{Log, Medium};
    ///
    /// let mut log = Log::setup(Medium::zeroed(82).unwrap())?;
    /// log.append(b"abcdef")?;
    /// assert_eq!(log.room()?, 3);
    /// # Ok::<(), blackboxlog::Error>(())
    /// ```
    pub fn room(&self) -> Result<u64, Error> {
        room(self.medium.as_ref(), self.handle()?)
    }

    /// The medium's bytes.
    ///
    /// ```
    /// use blackboxlog::{Log, Medium};
    /// assert_eq!(Log::setup(Medium::zeroed(82).unwrap())?.medium().len(), 82);
    /// # Ok::<(), blackboxlog::Error>(())
    /// ```
    pub fn medium(&self) -> &[u8] {
        self.medium.as_ref()
    }

    /// The medium itself.
    ///
    /// ```
    /// use blackboxlog::{Log, Medium, Reader};
    ///
    /// let medium: Medium = Log::setup(Medium::zeroed(82).unwrap())?.into_medium();
    /// assert!(Reader::open(&medium).is_ok());
    /// # Ok::<(), blackboxlog::Error>(())
    /// ```
    pub fn into_medium(self) -> B {
        self.medium
    }

    fn handle(&self) -> Result<Handle, Error> {
        self.handle.ok_or(Error::NotOpen)
    }
}

/// A log that is only read: for an image that must not be changed. Its medium need not be aligned.
///
/// ```
/// use blackboxlog::{Log, Medium, Reader};
///
/// let mut medium = Medium::zeroed(100).unwrap();
/// Log::setup(&mut medium)?.append(b"door 4 open")?;
/// let log = Reader::open(&medium)?;
/// assert_eq!(log.read_vec(0, 6)?, b"door 4");
/// # Ok::<(), blackboxlog::Error>(())
/// ```
#[derive(Clone, Copy, Debug)]
pub struct Reader<'m> {
    medium: &'m [u8],
    handle: Handle,
}

impl<'m> Reader<'m> {
    /// Opens the log that stands on the medium. It looks at 72 bytes, however long the medium is.
    ///
    /// ```
    /// use blackboxlog::{Error, Reader};
    /// assert_eq!(Reader::open(&[]).unwrap_err(), Error::TooShort { required: 73 });
    /// ```
    pub fn open(medium: &'m [u8]) -> Result<Self, Error> {
        Ok(Reader { medium, handle: archive::open(medium)? })
    }

    /// As [`Log::read`].
    ///
    /// ```
    /// use blackboxlog::{Log, Medium, Reader};
    ///
    /// let mut medium = Medium::zeroed(100).unwrap();
    /// Log::setup(&mut medium)?.append(b"door 4 open")?;
    /// let mut out = [0; 4];
    /// Reader::open(&medium)?.read(0, &mut out)?;
    /// assert_eq!(&out, b"door");
    /// # Ok::<(), blackboxlog::Error>(())
    /// ```
    pub fn read(&self, position: u64, out: &mut [u8]) -> Result<(), Error> {
        archive::read(self.medium, self.handle, position, out)
    }

    /// As [`Log::read_vec`].
    ///
    /// ```
    /// use blackboxlog::{Error, Log, Medium, Reader};
    ///
    /// let mut medium = Medium::zeroed(100).unwrap();
    /// Log::setup(&mut medium)?;
    /// assert_eq!(Reader::open(&medium)?.read_vec(0, 1), Err(Error::BeyondTail { tail: 0 }));
    /// # Ok::<(), Error>(())
    /// ```
    #[cfg(feature = "std")]
    pub fn read_vec(&self, position: u64, length: u64) -> Result<std::vec::Vec<u8>, Error> {
        read_vec(self.medium, self.handle, position, length)
    }

    /// As [`Log::ask`]; of a log that was opened it is never refused.
    ///
    /// ```
    /// use blackboxlog::{Log, Medium, Numbers, Reader};
    ///
    /// let mut medium = Medium::zeroed(82).unwrap();
    /// Log::setup(&mut medium)?;
    /// assert_eq!(Reader::open(&medium)?.ask()?, Numbers { head: 0, tail: 0, capacity: 9 });
    /// # Ok::<(), blackboxlog::Error>(())
    /// ```
    pub fn ask(&self) -> Result<Numbers, Error> {
        ask(self.medium, self.handle)
    }

    /// As [`Log::room`].
    ///
    /// ```
    /// use blackboxlog::{Log, Medium, Reader};
    ///
    /// let mut medium = Medium::zeroed(82).unwrap();
    /// Log::setup(&mut medium)?;
    /// assert_eq!(Reader::open(&medium)?.room()?, 9);
    /// # Ok::<(), blackboxlog::Error>(())
    /// ```
    pub fn room(&self) -> Result<u64, Error> {
        room(self.medium, self.handle)
    }
}

fn ask(medium: &[u8], handle: Handle) -> Result<Numbers, Error> {
    let reply = archive::ask(medium, handle)?;
    Ok(Numbers { head: reply.handle.head, tail: reply.handle.tail, capacity: reply.number })
}

/// The room is what a refusal names, and no ring has room for 2^64 - 1 bytes.
fn room(medium: &[u8], handle: Handle) -> Result<u64, Error> {
    match archive::plan_append(medium, handle, u64::MAX, &mut [0; PLAN_WORDS]) {
        Ok(_) => Ok(u64::MAX),
        Err(Error::NoRoom { room }) => Ok(room),
        Err(error) => Err(error),
    }
}

#[cfg(feature = "std")]
fn read_vec(medium: &[u8], handle: Handle, position: u64, length: u64) -> Result<std::vec::Vec<u8>, Error> {
    // the position alone, before so many bytes are asked for
    archive::read(medium, handle, position, &mut [])?;
    if length > handle.tail - position {
        return Err(Error::BeyondTail { tail: handle.tail });
    }
    let mut out = std::vec::Vec::new();
    out.try_reserve_exact(length as usize).map_err(|_| Error::NoMemory { bytes: length })?;
    out.resize(length as usize, 0);
    archive::read(medium, handle, position, &mut out)?;
    Ok(out)
}

/// An operation under way: a plan, and how many of its steps are done. [`Log::begin_append`] and its sisters make one.
///
/// Each call of [`step`](Operation::step) makes one write or asks for a flush. The log is open again when all steps are done. An operation
/// that is dropped before that leaves the medium as a power cut would, and the log not open; [`Log::reopen`] says what is to be done then.
///
/// ```
/// use blackboxlog::{Log, Medium, Step};
///
/// let mut log = Log::setup(Medium::zeroed(100).unwrap())?;
/// let mut append = log.begin_append(b"engine half ahead")?;
/// while let Some(step) = append.step()? {
///     if let Step::Written { at, bytes } = step {
///         println!("{} bytes at {}", bytes.len(), at);
///     }
/// }
/// println!("appended at {}", append.answer()?);
/// # Ok::<(), blackboxlog::Error>(())
/// ```
#[derive(Debug)]
#[must_use = "nothing is written before its steps are made"]
pub struct Operation<'a> {
    medium: &'a mut [u8],
    handle: &'a mut Option<Handle>,
    bytes: &'a [u8],
    plan: Plan,
    planned: Reply,
    done: u64,
}

fn begin_setup<'a>(medium: &'a mut [u8], handle: &'a mut Option<Handle>) -> Result<Operation<'a>, Error> {
    archive::addresses(medium, &[])?;
    let mut plan = [0; PLAN_WORDS];
    let planned = archive::plan_setup(medium, &mut plan)?;
    *handle = None;
    Ok(Operation { medium, handle, bytes: &[], plan, planned, done: 0 })
}

fn begin_append<'a>(
    medium: &'a mut [u8],
    handle: &'a mut Option<Handle>,
    bytes: &'a [u8],
) -> Result<Operation<'a>, Error> {
    archive::addresses(medium, bytes)?;
    let mut plan = [0; PLAN_WORDS];
    let planned = archive::plan_append(medium, handle.ok_or(Error::NotOpen)?, bytes.len() as u64, &mut plan)?;
    *handle = None;
    Ok(Operation { medium, handle, bytes, plan, planned, done: 0 })
}

fn begin_advance<'a>(
    medium: &'a mut [u8],
    handle: &'a mut Option<Handle>,
    position: u64,
) -> Result<Operation<'a>, Error> {
    archive::addresses(medium, &[])?;
    let mut plan = [0; PLAN_WORDS];
    let planned = archive::plan_advance(medium, handle.ok_or(Error::NotOpen)?, position, &mut plan)?;
    *handle = None;
    Ok(Operation { medium, handle, bytes: &[], plan, planned, done: 0 })
}

impl Operation<'_> {
    /// Makes the next step, and says what it was; `None`, once all are done. At [`Step::Flush`] everything that was written must be there for
    /// good before the next call, and this holds of the last call too, the one that answers `None`.
    ///
    /// ```
    /// use blackboxlog::{Log, Medium};
    ///
    /// let mut log = Log::on(Medium::zeroed(100).unwrap());
    /// let mut setup = log.begin_setup()?;
    /// while let Some(step) = setup.step()? {}
    /// assert_eq!(setup.step()?, None);
    /// # Ok::<(), blackboxlog::Error>(())
    /// ```
    pub fn step(&mut self) -> Result<Option<Step<'_>>, Error> {
        while self.done < self.planned.steps {
            let done = archive::carry_out(self.medium, &self.plan, self.bytes, self.done);
            let stepped = done.ok_or(Error::BrokenPlan { step: self.done })?;
            self.done += 1;
            if stepped.code == step::FLUSH {
                return Ok(Some(Step::Flush));
            }
            // a put of no bytes is nothing to tell
            if stepped.length > 0 {
                let at = stepped.at as usize;
                return Ok(Some(Step::Written { at, bytes: &self.medium[at..at + stepped.length as usize] }));
            }
        }
        *self.handle = Some(self.planned.handle);
        Ok(None)
    }

    /// What the operation answers, if all steps are done: the capacity of a set-up, the position of an append, 0 for an advance.
    ///
    /// ```
    /// use blackboxlog::{Error, Log, Medium};
    ///
    /// let mut log = Log::setup(Medium::zeroed(100).unwrap())?;
    /// assert_eq!(log.begin_append(b"x")?.answer(), Err(Error::NotOpen));
    /// # Ok::<(), Error>(())
    /// ```
    pub fn answer(self) -> Result<u64, Error> {
        match *self.handle {
            Some(_) => Ok(self.planned.number),
            None => Err(Error::NotOpen),
        }
    }

    /// Makes all steps that are left, and tells the memory of each.
    ///
    /// ```
    /// use blackboxlog::{Log, Medium, Plain};
    ///
    /// let mut log = Log::setup(Medium::zeroed(100).unwrap())?;
    /// assert_eq!(log.begin_append(b"x")?.finish(&mut Plain)?, 0);
    /// # Ok::<(), blackboxlog::Error>(())
    /// ```
    pub fn finish<M: Memory + ?Sized>(mut self, memory: &mut M) -> Result<u64, Error> {
        while let Some(step) = self.step()? {
            match step {
                Step::Written { at, bytes } => memory.written(at, bytes),
                Step::Flush => memory.flush(),
            }
        }
        self.answer()
    }
}
