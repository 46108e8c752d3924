//! The rules that are told apart, in the order in which a call meets them.

macro_rules! rules {
    ($($rule:ident: $text:literal,)*) => {
        #[derive(Clone, Copy, Debug, PartialEq, Eq, PartialOrd, Ord)]
        pub enum Rule {
            $($rule,)*
        }

        impl Rule {
            pub const ALL: &[Rule] = &[$(Rule::$rule,)*];

            pub fn text(self) -> &'static str {
                match self {
                    $(Rule::$rule => $text,)*
                }
            }
        }
    };
}

/// Rules found in a call, one entry for each time.
#[derive(Default)]
pub struct Found(Vec<Rule>);

impl Found {
    pub fn push(&mut self, rule: Rule) {
        self.0.push(rule);
    }

    pub fn when(&mut self, shown: bool, rule: Rule) {
        if shown {
            self.push(rule);
        }
    }

    pub fn into_rules(self) -> Vec<Rule> {
        self.0
    }
}

rules! {
    InitialPages: "open: initial pages",
    RootEndsAddresses: "reserve: a root ends at 2^63",
    HandleZero: "create: handle 0",
    AskedFailed: "asked: a failing code",
    ZombieOut: "cleanup: a zombie taken out",
    ZombieRefilled: "cleanup: the last one moved into the middle and asked next",
    ZombieStanding: "cleanup: one left standing",
    ZombieUnmapFailed: "cleanup: unmap failed",
    HoleAlone: "insert hole: no merge",
    HoleNext: "insert hole: merges next",
    HolePrevious: "insert hole: merges previous",
    HoleBoth: "insert hole: merges both",
    HoleAcrossRoots: "insert hole: merges across roots",
    FitSame: "fit: same stream",
    FitSameTie: "fit: same stream, tie",
    FitAsking: "fit: by asking",
    FitAskingTie: "fit: by asking, tie",
    FitSeveralAsked: "fit: several asked",
    FitNoneComplete: "fit: asked, none complete",
    FitExact: "fit: exact",
    FitSplit: "fit: split, a tail left",
    FitTailTakenOver: "fit: the tail of a region taken over goes to the new stream",
    FitAboveVaSize: "fit: above va_size",
    RefusedThoughHole: "8 though a merged hole would do",
    HoleTakenExact: "hole taken: exact",
    HoleTakenSplit: "hole taken: split",
    HoleTakenTie: "hole taken: tie",
    RootNew: "new root",
    RootAbove: "new root: touches an earlier one's end",
    RootBelow: "new root: touches an earlier one's start",
    RootRestMerged: "new root: its rest merges with a touching hole",
    RootWhole: "new root: request is va_size, no rest",
    MissingNone: "missing: none",
    MissingSome: "missing: some",
    MissingAll: "missing: all",
    RollbackNoPage: "rollback: no page made",
    RollbackPages: "rollback: with pages",
    RollbackLess: "rollback: less missing than requested",
    RollbackAlone: "rollback: range merges with nothing",
    RollbackNext: "rollback: range merges next",
    RollbackPrevious: "rollback: range merges previous",
    RollbackBoth: "rollback: range merges both",
    RollbackUnmapFailed: "rollback: unmap failed",
    RollbackReleaseFailed: "rollback: release failed",
    FreeAlone: "insert free: no merge",
    FreeNext: "insert free: merges next",
    FreePrevious: "insert free: merges previous",
    FreeBoth: "insert free: merges both",
    FreeAcrossRoots: "insert free: merges across roots",
    Dropped: "dropped end",
    DroppedAndPulled: "dropped end, and regions pulled",
    PullOwn: "pull: own",
    PullComplete: "pull: another's, complete",
    PullWaited: "pull: another's, waited for",
    PullPart: "pull: part taken, a rest left",
    PullSeveral: "pull: several",
    MovedJoinsNew: "moved pages join the new ones",
    MovedNext: "moved pages merge next",
    AnswerBelow: "answer below the taken hole",
    TailFresh: "a tail with the fresh id",
    FailedCreate: "14 at create",
    FailedMap: "14 at the map of a new page",
    FailedAccess: "14 at the access over new pages",
    FailedWait: "14 at wait",
    FailedMove: "14 at the map of a page that moves",
    FailedMoved: "14 at the access over moved pages",
    CloseWithZombies: "close: with zombies",
    CloseWithLive: "close: with live buffers",
    CloseSeveralRoots: "close: several roots",
}
