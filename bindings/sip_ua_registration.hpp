// A registration for C++17: sip_ua_registration.h over the class of sip_ua.hpp. Link with -lcrypto.
#ifndef SIP_UA_REGISTRATION_HPP
#define SIP_UA_REGISTRATION_HPP

#include "sip_ua.hpp"
#include "sip_ua_registration.h"

namespace sip {

/// Whom to register where. `contact` is the URI to bind, `expires` for how many s.
struct Account {
    Address registrar;
    std::string registrar_uri;
    std::string user_uri;
    std::string contact;
    std::string username;
    std::string password;
    std::uint32_t expires = 3600;
};

/// A registration of an account: it answers challenges, refreshes the binding, and tries again
/// after a failure. In the loop of the host, give it each output of a round, wake it before one,
/// and wait no longer than until it is due. Each of these calls may give a command, which is an
/// event of the next round. It throws sip::Error as sip_ua_registration.h has its faults.
class Registration {
public:
    explicit Registration(Account given) : account(std::move(given)) {
        registration.registrar = account.registrar;
        registration.registrar_uri = account.registrar_uri.c_str();
        registration.user_uri = account.user_uri.c_str();
        registration.contact = account.contact.c_str();
        registration.username = account.username.c_str();
        registration.password = account.password.c_str();
        registration.expires = account.expires;
    }

    // What it holds refers to the texts of its account.
    Registration(const Registration &) = delete;
    Registration &operator=(const Registration &) = delete;

    /// Registers, and keeps the binding from then on.
    void start(Agent &agent, std::uint64_t moment) {
        check(sip_ua_register(&registration, agent.get(), moment));
    }

    /// Removes the binding, or all bindings of the user, and ends the registration.
    void stop(Agent &agent, std::uint64_t moment, bool removes_all = false) {
        check(sip_ua_unregister(&registration, agent.get(), moment, removes_all));
    }

    /// Takes an output of the last round. It does nothing with what isn't about this registration.
    void tell(Agent &agent, const TypedOutput &output, std::uint64_t moment) {
        if (output.numbers.kind < SIP_UA_NOTICE_REQUEST)
            return;
        const std::string texts = output.call_id + output.local_tag + output.remote_tag
            + output.method + output.body;
        check(sip_ua_registration_tell(&registration, agent.get(), &output.numbers,
                                       reinterpret_cast<const std::uint8_t *>(texts.data()),
                                       moment));
    }

    /// Refreshes the binding, or tries again after a failure, if it is time to.
    void wake(Agent &agent, std::uint64_t moment) {
        check(sip_ua_registration_wake(&registration, agent.get(), moment));
    }

    /// When `wake` has something to do, if it has.
    std::optional<std::uint64_t> due() const {
        const sip_ua_due due = sip_ua_registration_due(&registration);
        return due.is_due ? std::optional(due.moment) : std::nullopt;
    }

    /// How it stands: SIP_UA_REGISTERED ..
    std::uint32_t state() const { return registration.state; }

    /// The status of the last final response: 408 after a timeout, 503 if a send failed.
    std::uint32_t status() const { return registration.status; }

    /// For how many s the registrar granted the binding.
    std::uint32_t granted() const { return registration.granted; }

private:
    static void check(std::uint32_t status) {
        if (status != SIP_UA_OK)
            throw Error(status);
    }

    Account account;
    sip_ua_registration registration = {};
};

} // namespace sip

#endif
