//! The two desks, as a Rust program would call each.

/// What a reader says of messages: the first one's number and how many there are, where the
/// packet tells that, and where they stand.
pub struct Seen<'a> {
    pub first: u64,
    pub count: u16,
    pub body: &'a [u8],
}

/// What a login says: user and password where it is asked for, the session, and the number of the
/// next message.
pub struct Login {
    pub who: Option<([u8; 6], [u8; 10])>,
    pub session: [u8; 10],
    pub next: u64,
}

/// What is called on a desk. Nothing but a login may be refused in a replay, so that any other
/// refusal panics.
pub trait Desk {
    /// A session record.
    type Record;
    /// Where a record's early messages are held.
    type Area;
    /// A Soup stream between two pieces, and its buffer.
    type Pieces;
    /// A log over lent bytes.
    type Log<'a>;

    fn read_ufo(packet: &[u8]) -> Seen<'_>;
    fn read_memx(packet: &[u8]) -> Seen<'_>;
    fn read_soup(packet: &[u8]) -> Seen<'_>;
    fn read_tcp(packet: &[u8]) -> Seen<'_>;
    /// Reads a login or gives the refusal's number.
    fn read_login(packet: &[u8]) -> Result<Login, u8>;
    /// The packet of a login.
    fn write_login<'a>(login: &Login, out: &'a mut [u8]) -> &'a [u8];

    /// A stream of which nothing came yet.
    fn pieces() -> Self::Pieces;
    /// Feeds a piece; what its packets say: a message with its number, or a login with that of the
    /// first message.
    fn feed(pieces: &mut Self::Pieces, piece: &[u8], each: impl FnMut(Seen<'_>));
    /// The number of the next message of a stream.
    fn next_number(pieces: &Self::Pieces) -> u64;

    fn open_ufo(name: [u8; 10]) -> Self::Record;
    fn open_memx(session: u64) -> Self::Record;
    /// An area of 47,104 bytes.
    fn area() -> Self::Area;
    /// Takes a datagram; what is delivered, and how many messages that is.
    fn take<'a>(
        record: &mut Self::Record,
        area: &mut Self::Area,
        datagram: &[u8],
        out: &'a mut [u8],
    ) -> (&'a [u8], u64);
    /// The number of the next message.
    fn next(record: &Self::Record) -> u64;

    fn log(bytes: &mut [u8]) -> Self::Log<'_>;
    fn add(log: &mut Self::Log<'_>, message: &[u8]);
    /// The packet that answers a request.
    fn answer<'a>(log: &Self::Log<'_>, first: u32, count: u16, out: &'a mut [u8]) -> &'a [u8];
}

const REFUSED: &str = "nothing in a replay is refused but logins";

/// What is read and written of packets, which both crates name alike; the desk is named by where
/// its kinds are.
macro_rules! packets {
    ($desk:ident $(:: $kinds:ident)?) => {
        fn read_ufo(packet: &[u8]) -> Seen<'_> {
            match $desk::ufo::read_down(packet).expect(REFUSED) {
                $desk::ufo::Down::Sequenced {
                    first,
                    count,
                    blocks,
                } => seen(first.0, count, blocks),
                other => panic!("{other:?}"),
            }
        }

        fn read_memx(packet: &[u8]) -> Seen<'_> {
            match $desk::memx::read(packet).expect(REFUSED) {
                $desk::memx::Packet::Sequenced {
                    first,
                    count,
                    blocks,
                    ..
                } => seen(first.0, count, blocks),
                other => panic!("{other:?}"),
            }
        }

        fn read_soup(packet: &[u8]) -> Seen<'_> {
            match $desk::soup::read(packet).expect(REFUSED) {
                $desk::soup::Packet::Sequenced(payload) => seen(0, 1, payload),
                other => panic!("{other:?}"),
            }
        }

        fn read_tcp(packet: &[u8]) -> Seen<'_> {
            match $desk::memx_tcp::read(packet).expect(REFUSED) {
                $desk::memx_tcp::Packet::Sequenced(payload) => seen(0, 1, payload),
                other => panic!("{other:?}"),
            }
        }

        // inlined, so that Soup's reader is compiled once more here and `read_soup` is left alone
        #[inline]
        fn read_login(packet: &[u8]) -> Result<Login, u8> {
            use $desk::soup::Packet;
            let (who, session, next) = match $desk::soup::read(packet) {
                Ok(Packet::Accepted { session, next }) => (None, session, next),
                Ok(Packet::Login {
                    user,
                    password,
                    session,
                    next,
                }) => (Some((user.0, password.0)), session, next),
                Ok(other) => panic!("{other:?}"),
                Err(refusal) => return Err(refusal.number()),
            };
            Ok(Login {
                who,
                session: session.0,
                next: next.0,
            })
        }

        fn write_login<'a>(login: &Login, out: &'a mut [u8]) -> &'a [u8] {
            use $desk::$($kinds::)?{Name, Password, Sequence, User};
            use $desk::soup::Packet;
            let (session, next) = (Name(login.session), Sequence(login.next));
            let packet = match login.who {
                None => Packet::Accepted { session, next },
                Some((user, password)) => Packet::Login {
                    user: User(user),
                    password: Password(password),
                    session,
                    next,
                },
            };
            let length = $desk::soup::write(&packet, out).expect(REFUSED);
            &out[..length]
        }
    };
}

/// What is handed out of a stream, which both crates name alike.
macro_rules! handed {
    ($desk:ident, $handed:expr) => {
        match ($handed.packet.expect(REFUSED), $handed.number) {
            ($desk::soup::Packet::Sequenced(payload), Some(number)) => seen(number.0, 1, payload),
            ($desk::soup::Packet::Accepted { next, .. }, None) => seen(next.0, 0, &[]),
            other => panic!("{other:?}"),
        }
    };
}

fn seen(first: u64, count: u16, body: &[u8]) -> Seen<'_> {
    Seen { first, count, body }
}

/// The proved desk, by the crate `hinurapay`.
pub struct Proved;

impl Desk for Proved {
    type Record = hinurapay::Record;
    type Area = hinurapay::Area;
    type Pieces = hinurapay::Pieces;
    type Log<'a> = hinurapay::Log<'a>;

    packets!(hinurapay);

    fn pieces() -> Self::Pieces {
        hinurapay::Pieces::new()
    }

    fn feed(pieces: &mut Self::Pieces, piece: &[u8], mut each: impl FnMut(Seen<'_>)) {
        let mut fed = pieces.feed(piece);
        while let Some(handed) = fed.next() {
            each(handed!(hinurapay, handed));
        }
    }

    fn next_number(pieces: &Self::Pieces) -> u64 {
        pieces.next_number().map_or(0, |next| next.0)
    }

    fn open_ufo(name: [u8; 10]) -> Self::Record {
        hinurapay::Record::open_ufo(hinurapay::Name(name)).expect(REFUSED)
    }

    fn open_memx(session: u64) -> Self::Record {
        hinurapay::Record::open_memx(hinurapay::SessionId(session))
    }

    fn area() -> Self::Area {
        hinurapay::Area::new()
    }

    fn take<'a>(
        record: &mut Self::Record,
        area: &mut Self::Area,
        datagram: &[u8],
        out: &'a mut [u8],
    ) -> (&'a [u8], u64) {
        let taken = record.take(area, datagram, out).expect(REFUSED);
        (taken.blocks, taken.messages)
    }

    fn next(record: &Self::Record) -> u64 {
        record.next().0
    }

    fn log(bytes: &mut [u8]) -> Self::Log<'_> {
        hinurapay::Log::over(bytes)
    }

    fn add(log: &mut Self::Log<'_>, message: &[u8]) {
        log.add(message).expect(REFUSED);
    }

    fn answer<'a>(log: &Self::Log<'_>, first: u32, count: u16, out: &'a mut [u8]) -> &'a [u8] {
        let first = hinurapay::Sequence(first.into());
        let length = log.answer(first, count, out).expect(REFUSED);
        &out[..length]
    }
}

/// The ordinary desk, by the crate `ordinary`.
pub struct Ordinary;

impl Desk for Ordinary {
    type Record = ordinary::record::Record;
    type Area = [u8; ordinary::held::AREA];
    type Pieces = (
        ordinary::soup_pieces::Pieces,
        [u8; ordinary::soup_pieces::BUFFER],
    );
    type Log<'a> = (ordinary::lend::Log, &'a mut [u8]);

    packets!(ordinary::kinds);

    fn pieces() -> Self::Pieces {
        let pieces = ordinary::soup_pieces::Pieces::default();
        (pieces, [0; ordinary::soup_pieces::BUFFER])
    }

    fn feed((pieces, buffer): &mut Self::Pieces, mut piece: &[u8], mut each: impl FnMut(Seen<'_>)) {
        while let Some(handed) = pieces.take(buffer, &mut piece).expect(REFUSED) {
            each(handed!(ordinary, handed));
        }
    }

    fn next_number((pieces, _): &Self::Pieces) -> u64 {
        pieces.next.0
    }

    fn open_ufo(name: [u8; 10]) -> Self::Record {
        ordinary::record::Record::open_ufo(ordinary::kinds::Name(name)).expect(REFUSED)
    }

    fn open_memx(session: u64) -> Self::Record {
        ordinary::record::Record::open_memx(ordinary::kinds::SessionId(session))
    }

    fn area() -> Self::Area {
        [0; ordinary::held::AREA]
    }

    fn take<'a>(
        record: &mut Self::Record,
        area: &mut Self::Area,
        datagram: &[u8],
        out: &'a mut [u8],
    ) -> (&'a [u8], u64) {
        let delivered = record.take_in_place(area, datagram, out).expect(REFUSED);
        (&out[..delivered.bytes], delivered.messages)
    }

    fn next(record: &Self::Record) -> u64 {
        record.next.0
    }

    fn log(bytes: &mut [u8]) -> Self::Log<'_> {
        (ordinary::lend::Log::default(), bytes)
    }

    fn add(log: &mut Self::Log<'_>, message: &[u8]) {
        log.0.add(log.1, message).expect(REFUSED);
    }

    fn answer<'a>(log: &Self::Log<'_>, first: u32, count: u16, out: &'a mut [u8]) -> &'a [u8] {
        let length = log.0.answer(log.1, first, count, out).expect(REFUSED);
        &out[..length]
    }
}
