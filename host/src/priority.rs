//! Facilities and severities, with their names, and both as a priority.

use core::fmt;

/// An enum of levels, one row each: name, number and text.
macro_rules! levels {
    ($(#[$about:meta])+ $name:ident { $($(#[$doc:meta])+ $level:ident = $number:literal $text:literal)+ }) => {
        $(#[$about])+
        #[derive(Clone, Copy, Debug, PartialEq, Eq, PartialOrd, Ord, Hash)]
        pub enum $name {
            $($(#[$doc])+ $level = $number,)+
        }

        impl $name {
            /// All of them, in the order of their numbers.
            pub const ALL: &'static [$name] = &[$($name::$level,)+];

            /// The one with this number, if there is one.
            pub const fn from_number(number: u8) -> Option<$name> {
                match number {
                    $($number => Some($name::$level),)+
                    _ => None,
                }
            }

            /// The number.
            pub const fn number(self) -> u8 {
                self as u8
            }

            /// The name, as syslog_loose has it.
            pub const fn as_str(self) -> &'static str {
                match self {
                    $($name::$level => $text,)+
                }
            }
        }

        impl fmt::Display for $name {
            /// Writes the name.
            fn fmt(&self, f: &mut fmt::Formatter<'_>) -> fmt::Result {
                f.pad(self.as_str())
            }
        }
    };
}

levels! {
    /// The facility of a line: a priority divided by 8, of 0 to 23.
    ///
    /// ```
    /// use khamdoriem::{Facility, Severity};
    ///
    /// let priority = 165;
    /// assert_eq!(Facility::from_number(priority / 8), Some(Facility::Local4));
    /// assert_eq!(Severity::from_number(priority % 8).map(Severity::as_str), Some("notice"));
    /// assert_eq!(Facility::from_number(24), None);
    /// ```
    Facility {
        /// 0, the kernel.
        Kern = 0 "kern"
        /// 1, programs of users.
        User = 1 "user"
        /// 2, mail.
        Mail = 2 "mail"
        /// 3, system daemons.
        Daemon = 3 "daemon"
        /// 4, security and authorization.
        Auth = 4 "auth"
        /// 5, syslog itself.
        Syslog = 5 "syslog"
        /// 6, line printers.
        Lpr = 6 "lpr"
        /// 7, network news.
        News = 7 "news"
        /// 8, UUCP.
        Uucp = 8 "uucp"
        /// 9, the clock daemon of Linux.
        Cron = 9 "cron"
        /// 10, security and authorization, private.
        Authpriv = 10 "authpriv"
        /// 11, FTP.
        Ftp = 11 "ftp"
        /// 12, NTP.
        Ntp = 12 "ntp"
        /// 13, the log's audit.
        Audit = 13 "audit"
        /// 14, the log's alert.
        Alert = 14 "alert"
        /// 15, another clock daemon.
        Clockd = 15 "clockd"
        /// 16, local use.
        Local0 = 16 "local0"
        /// 17, local use.
        Local1 = 17 "local1"
        /// 18, local use.
        Local2 = 18 "local2"
        /// 19, local use.
        Local3 = 19 "local3"
        /// 20, local use.
        Local4 = 20 "local4"
        /// 21, local use.
        Local5 = 21 "local5"
        /// 22, local use.
        Local6 = 22 "local6"
        /// 23, local use.
        Local7 = 23 "local7"
    }
}

levels! {
    /// The severity of a line: what is left of a priority divided by 8. The more severe is the less: `Err < Warning`.
    Severity {
        /// 0, emergency: the system is unusable.
        Emerg = 0 "emerg"
        /// 1, alert: action must be taken at once.
        Alert = 1 "alert"
        /// 2, critical.
        Crit = 2 "crit"
        /// 3, error.
        Err = 3 "err"
        /// 4, warning.
        Warning = 4 "warning"
        /// 5, notice: normal but significant.
        Notice = 5 "notice"
        /// 6, informational.
        Info = 6 "info"
        /// 7, debug.
        Debug = 7 "debug"
    }
}

/// The priority of a line: a facility and a severity, which are eight times the one and the other in one number, 0 to 191.
///
/// ```
/// use khamdoriem::{Facility, Priority, Severity};
///
/// let priority = Priority::new(Facility::Local4, Severity::Notice);
/// assert_eq!((priority.number(), priority.to_string()), (165, "local4.notice".to_string()));
/// assert_eq!(Priority::from_number(165), Some(priority));
/// assert_eq!(Priority::from_number(192), None);
/// ```
#[derive(Clone, Copy, Debug, PartialEq, Eq, Hash)]
pub struct Priority {
    /// The facility.
    pub facility: Facility,
    /// The severity.
    pub severity: Severity,
}

impl Priority {
    /// The priority of both.
    pub const fn new(facility: Facility, severity: Severity) -> Priority {
        Priority { facility, severity }
    }

    /// The one with this number, or `None` where it is above 191.
    pub const fn from_number(number: u8) -> Option<Priority> {
        match (Facility::from_number(number / 8), Severity::from_number(number % 8)) {
            (Some(facility), Some(severity)) => Some(Priority { facility, severity }),
            _ => None,
        }
    }

    /// The number.
    pub const fn number(self) -> u8 {
        self.facility.number() * 8 + self.severity.number()
    }
}

impl From<(Facility, Severity)> for Priority {
    fn from((facility, severity): (Facility, Severity)) -> Priority {
        Priority { facility, severity }
    }
}

impl fmt::Display for Priority {
    /// Writes both names: `local4.notice`.
    fn fmt(&self, f: &mut fmt::Formatter<'_>) -> fmt::Result {
        write!(f, "{}.{}", self.facility, self.severity)
    }
}
