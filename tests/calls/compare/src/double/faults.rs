//! The faults that a double can have: a refusal that is never given, two refusals the other way round, or one of a list.

use crate::call::Kind;

#[derive(Clone, Copy, PartialEq, Eq)]
pub enum Fault {
    None,
    /// The call never refuses with that number.
    Never(Kind, u8),
    /// The call judges the first of these numbers only after the second, which follows it.
    Later(Kind, u8, u8),
    Odd(Odd),
}

macro_rules! odd {
    ($($fault:ident: $words:literal,)*) => {
        #[derive(Clone, Copy, PartialEq, Eq)]
        pub enum Odd { $($fault,)* }
        const ODD: &[(Odd, &str)] = &[$((Odd::$fault, $words),)*];
    };
}

odd! {
    // what is permitted, and the chain of secrets
    Shift32: "command bit shifted over 32 bits only",
    StopIgnored: "words after the chain's stop ignored",
    StopChained: "words after the chain's stop chained",
    AllChained: "all four words chained",
    FirstChained: "first word chained alone",
    PresentUnasked: "present word not asked",
    FourthUnasked: "fourth word not asked",
    WordBackwards: "word the other way round in the chain",
    LowByteOfId: "low byte of the ID in the first secret",
    SecretOf15: "secret compared in 15 bytes",
    HostGroupAt16: "16 judged with the host's group",
    GroupZeroAt13: "packet of no group refused by 13",
    AtTheCount: "command at the count let through",
    // numbers
    SignedNumbers: "numbers compared as signed ones",
    EqualIsFresh: "last number fresh again",
    OneForTheBox: "one counter of numbers for the whole box",
    BesideTheState: "last numbers kept beside the state",
    MovedByRefused: "last number moved by a refused command",
    NotMoved: "last number not moved",
    CountedUp: "last number counted up",
    // what is remembered
    VerdictKept: "verdict remembered past a revocation",
    ClaimEnded: "claim to a reply ended by a refused command",
    NotOwed: "no reply owed",
    OwedForever: "reply given twice",
    AnyNumberOwed: "reply for any number",
    SetBack: "last number set back by a reply",
    KeyOfFirst: "first host's key for all",
    UnknownIsOpen: "unknown tag taken for open",
    ConnectionKept: "request that keeps the open connection",
    OlderChallenge: "request that keeps the older challenge",
    WaitingEnded: "wrong proof ends the waiting",
    LastKept: "proof that keeps the last number",
    ChallengeKept: "proof that keeps the challenge",
    ChallengeOf15: "challenge compared in 15 bytes",
    KeyExchanged: "key and block exchanged in a proof",
    CloseKeepsKey: "close that keeps the key",
    CloseOpenAlone: "close of open hosts alone",
    CloseNext: "close of the next host too",
    Replaces: "revocation that replaces the word",
    TakesTheRest: "revocation of what the word has",
    RevokesNothing: "revocation without effect",
    RevokesAll: "revocation of all entries",
    // names
    NameWithoutLength: "name compared without its length",
    NameAnyCase: "name compared in any case",
    HighestName: "highest of equal names",
    MinorUnjudged: "minor version not judged",
    // rooms and what else is handed out
    BeforeTheTag: "payload written before the tag is judged",
    BeforeTheRights: "payload written before the rights are judged",
    BeforeTheSecret: "payload written before the secret is judged",
    RestWiped: "room's rest overwritten",
    ByteTooMany: "byte too many in the room",
    ByteBeyond: "byte beyond the room",
    ByteBefore: "byte before the room",
    InPlace: "packet deciphered where it lies",
    ChallengesExchanged: "challenges written the other way round",
    ClientZero: "client ID 0 in an answered proof",
    FieldsShown: "fields shown though refused",
    HostShown: "host shown though refused",
    LengthShown: "length shown though refused",
    BlocksUnset: "count not set by a refusal",
    // counts
    Count19: "count off by one for refusal 19",
    Count8: "whole text counted for a wrong tag",
    CountWhole: "whole blocks counted alone",
    CountFour: "four words counted",
    Count18: "first secret counted for 18",
    NothingCounted: "nothing counted",
    // sealing and opening
    ReplyWithData: "reply with additional data",
    ReplyVector: "reply's vector without the number",
    ReplyBackwards: "reply's number the other way round",
    DataUnsealed: "client ID not authenticated by the client",
    LengthLost: "high byte of a sealed length lost",
    VectorOf4: "reply's vector compared in 4 bytes",
    LastPlace: "narrowing in the last place",
    ConnectionKey: "key and block exchanged in the connection's key",
    // soundness
    HostCount: "host count not judged",
    InterfaceCount: "interface count not judged",
    EmptyName: "empty host name sound",
    LongName: "long host name sound",
    InterfaceName: "interface name not judged",
    NoCommands: "no commands sound",
    ManyCommands: "too many commands sound",
    EntryCount: "entry count not judged",
    Words: "words not judged",
    LastWord: "last word not judged",
    Beyond: "entries beyond the count judged",
    NamesBeyond: "names beyond the count judged",
    NoHosts: "unsound without hosts",
    // books
    StateKept: "refused load keeps the state",
    RecordsKept: "load keeps the records",
    NamesKept: "load keeps the rest of names",
    TotalAt0: "total's fault shown at 0",
    RowsAt0: "rows' fault shown at 0",
    IdAtKind: "id's fault shown at the kind",
    StartAtRow: "start's fault shown at the row",
    LengthAtStart: "length's fault shown at the start",
    EntriesAtCommands: "entry count's fault shown at the command count",
    WordAtEntry: "word's fault shown at its entry",
    LetterAtName: "letter's fault shown a byte before",
    UsedAtBody: "used name's fault shown at its body",
    AcrossKinds: "48 across kinds",
    ByBeginning: "48 by a name's beginning",
    SpaceLast: "space at a name's end let through",
    BitAtCount: "bit at the command count let through",
    FormatFirst: "format judged before the total",
    StartFirst: "start judged before the id",
    LongerBook: "book of 12,233 bytes is refused by 41",
}

/// Neighbours whose order can't be seen: one excludes the other, or nothing is known of an entry that isn't there.
const UNSEEN: [(Kind, u8, u8); 3] = [(Kind::Command, 1, 2), (Kind::Open, 1, 2), (Kind::Command, 15, 16)];

impl Fault {
    pub fn all() -> Vec<Fault> {
        let calls = Kind::ALL.into_iter();
        let never = calls.clone().flat_map(|kind| kind.order().iter().map(move |&number| Fault::Never(kind, number)));
        let judged = calls.filter(|&kind| kind != Kind::Load);
        let pairs = judged.flat_map(|kind| kind.order().windows(2).map(move |pair| (kind, pair[0], pair[1])));
        let later = pairs.filter(|pair| !UNSEEN.contains(pair)).map(|(kind, early, late)| Fault::Later(kind, early, late));
        let odd = ODD.iter().map(|&(odd, _)| Fault::Odd(odd));
        [Fault::None].into_iter().chain(never).chain(later).chain(odd).collect()
    }

    pub fn name(self) -> String {
        match self {
            Fault::None => "none".to_string(),
            Fault::Never(kind, number) => format!("{} never {number}", kind.name()),
            Fault::Later(kind, early, late) => format!("{} {late} before {early}", kind.name()),
            Fault::Odd(odd) => ODD.iter().find(|(known, _)| *known == odd).map_or("", |(_, words)| words).to_string(),
        }
    }

    pub fn named(name: &str) -> Option<Fault> {
        Fault::all().into_iter().find(|fault| fault.name() == name)
    }
}

#[cfg(test)]
mod tests {
    use super::*;

    #[test]
    fn faults_are_found_by_their_names() {
        let all = Fault::all();
        assert!(all.len() > 100 && all.iter().all(|fault| Fault::named(&fault.name()) == Some(*fault)));
    }
}
