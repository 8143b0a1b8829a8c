use std::fmt;
use std::num::NonZeroU32;

/// Why a call turned back what it was given, by the first rule that is broken. `docs/FORMAT.md` has the rules of an
/// image.
#[derive(Clone, Copy, Debug, PartialEq, Eq, Hash)]
#[non_exhaustive]
pub enum Refusal {
    /// 1: the image has not the length that its header says.
    Length,
    /// 2: the entry is no expression.
    Entry,
    /// 3: the texts do not stand end to end.
    Text,
    /// 4: a name's kind, text or spare bits.
    Name,
    /// 5: an expression's kind, detail, text or run of items.
    Expr,
    /// 6: an item's role, a name or an expression that is missing, that stands where its role has none, or a name that is none of
    /// the image's, or the order of an expression's items.
    Item,
    /// 7: a number or a table that was given to the call.
    Given,
    /// 8: the run takes more steps than the budget allows.
    OverBudget,
    /// 9: a lent buffer is shorter than the run needs.
    BufferTooShort,
    /// 10: an item names an expression whose number is not smaller than that of the item's owner: children come first.
    NotSmaller,
    /// 11: an Inherit names an expression that is no Reference.
    InheritsOther,
    /// A number that this crate does not know: the library is newer.
    Other(NonZeroU32),
}

impl Refusal {
    /// The refusal of a call's answer; 0 is none.
    pub(crate) fn from_number(number: u32) -> Option<Self> {
        Some(match NonZeroU32::new(number)?.get() {
            1 => Refusal::Length,
            2 => Refusal::Entry,
            3 => Refusal::Text,
            4 => Refusal::Name,
            5 => Refusal::Expr,
            6 => Refusal::Item,
            7 => Refusal::Given,
            8 => Refusal::OverBudget,
            9 => Refusal::BufferTooShort,
            10 => Refusal::NotSmaller,
            11 => Refusal::InheritsOther,
            _ => Refusal::Other(NonZeroU32::new(number)?),
        })
    }

    /// Its number, as the library gives it.
    #[must_use]
    pub fn number(self) -> u32 {
        match self {
            Refusal::Length => 1,
            Refusal::Entry => 2,
            Refusal::Text => 3,
            Refusal::Name => 4,
            Refusal::Expr => 5,
            Refusal::Item => 6,
            Refusal::Given => 7,
            Refusal::OverBudget => 8,
            Refusal::BufferTooShort => 9,
            Refusal::NotSmaller => 10,
            Refusal::InheritsOther => 11,
            Refusal::Other(number) => number.get(),
        }
    }

    fn reason(self) -> &'static str {
        match self {
            Refusal::Length => "the image has not the length that its header says",
            Refusal::Entry => "the entry is no expression",
            Refusal::Text => "the texts do not stand end to end",
            Refusal::Name => "a name breaks its rule",
            Refusal::Expr => "an expression breaks its rule",
            Refusal::Item => {
                "an item's role, its name, whether it has an expression, or the order of items breaks its rule"
            }
            Refusal::Given => "a given number or table breaks its rule",
            Refusal::OverBudget => "the steps exceed the budget",
            Refusal::BufferTooShort => "a lent buffer is too short",
            Refusal::NotSmaller => "an item's expression number is not smaller than its owner's",
            Refusal::InheritsOther => "an Inherit names an expression that is no Reference",
            Refusal::Other(_) => "for a reason that this crate does not know",
        }
    }
}

impl fmt::Display for Refusal {
    fn fmt(&self, to: &mut fmt::Formatter<'_>) -> fmt::Result {
        write!(to, "refusal {}: {}", self.number(), self.reason())
    }
}

impl std::error::Error for Refusal {}

#[cfg(test)]
mod tests {
    use super::Refusal;

    #[test]
    fn numbers_come_back() {
        assert_eq!(Refusal::from_number(0), None);
        for number in 1..20 {
            let refusal = Refusal::from_number(number);
            assert_eq!(refusal.map(Refusal::number), Some(number));
            let is_other = matches!(refusal, Some(Refusal::Other(_)));
            assert_eq!(is_other, number > 11);
        }
    }

    #[test]
    fn a_refusal_says_its_number_and_reason() {
        let said = Refusal::OverBudget.to_string();
        assert_eq!(said, "refusal 8: the steps exceed the budget");
        let said = Refusal::NotSmaller.to_string();
        let words = "refusal 10: an item's expression number is not smaller than its owner's";
        assert_eq!(said, words);
    }
}
