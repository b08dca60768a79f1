//! What a site has counted. The printed figures are the sums of both sites.

macro_rules! counts {
    ($($(#[$doc:meta])* $name:ident),* $(,)?) => {
        #[derive(Clone, Default)]
        pub struct Counts {
            $($(#[$doc])* pub $name: u64,)*
        }

        impl Counts {
            pub fn words(&self) -> Vec<u64> {
                vec![$(self.$name),*]
            }

            /// Adds what the other site has counted.
            pub fn add(&mut self, words: &[u64]) {
                let mut words = words.iter();
                $(self.$name += words.next().expect("both sites count the same");)*
            }
        }
    };
}

counts! {
    top_ups,
    reserved,
    settled,
    dropped,
    /// Operations that the ledger refused.
    refused,
    /// Copies that were sent.
    copies,
    /// Their lines, each once.
    lines,
    /// Requests that the table answered, and lines that were sent for them.
    requests,
    sent_again,
    /// What the link did with datagrams.
    datagrams,
    lost,
    repeated,
    held_back,
    /// What the standby's table said to the lines that arrived.
    heard,
    heard_again,
    late,
    no_room,
    /// Datagrams that the machine lost, not the link of this example.
    gone,
    changes,
    /// Ticks for which edits have waited before them.
    waited,
    stranded_calls,
    stranded_minutes,
    missing_calls,
    missing_minutes,
    /// What the primary holds at the end, and how many entries differ at the other site.
    entries,
    differing,
    passed,
    failed,
}

impl Counts {
    /// A check: it counts, and a failed one is named.
    pub fn check(&mut self, holds: bool, what: &str) {
        if holds {
            self.passed += 1;
        } else {
            self.failed += 1;
            println!("FAILED: {what}");
        }
    }
}
