//! The elements of table E.2 of source document 002 that an InitialFilterCriteria has.

#[derive(Clone, Copy, PartialEq, Eq, Debug)]
pub enum Element {
    InitialFilterCriteria,
    Priority,
    TriggerPoint,
    ConditionTypeCnf,
    Spt,
    ConditionNegated,
    Group,
    RequestUri,
    Method,
    SipHeader,
    Header,
    SessionCase,
    SessionDescription,
    Line,
    Content,
    RegistrationType,
    ApplicationServer,
    ServerName,
    DefaultHandling,
    ServiceInfo,
    ProfilePartIndicator,
}

impl Element {
    pub fn tag(self) -> &'static str {
        match self {
            Element::InitialFilterCriteria => "InitialFilterCriteria",
            Element::Priority => "Priority",
            Element::TriggerPoint => "TriggerPoint",
            Element::ConditionTypeCnf => "ConditionTypeCNF",
            Element::Spt => "SPT",
            Element::ConditionNegated => "ConditionNegated",
            Element::Group => "Group",
            Element::RequestUri => "RequestURI",
            Element::Method => "Method",
            Element::SipHeader => "SIPHeader",
            Element::Header => "Header",
            Element::SessionCase => "SessionCase",
            Element::SessionDescription => "SessionDescription",
            Element::Line => "Line",
            Element::Content => "Content",
            Element::RegistrationType => "RegistrationType",
            Element::ApplicationServer => "ApplicationServer",
            Element::ServerName => "ServerName",
            Element::DefaultHandling => "DefaultHandling",
            Element::ServiceInfo => "ServiceInfo",
            Element::ProfilePartIndicator => "ProfilePartIndicator",
        }
    }
}
