// The trading client (FIX 4.2) or the venue (FIX 5.0 SP2 over FIXT 1.1), as QuickFIX plays it.
//
//   peers client SETTINGS COUNT    sends COUNT orders, and what follows on their reports
//   peers venue SETTINGS           answers each request
//
// Both go on until their input ends. At each line of its input the venue stops and starts again,
// from what its store has, and the client sends the same orders again as new ones. A line goes to
// the output for each logon and logout, for each message of the application when it is sent for the
// first time (>) or taken (<), with | for SOH, for each Reject that is said or taken (!), and where
// all orders are sent.
//
// What becomes of an order is said by the last digit of its ClOrdID:
//   0, 5  it is filled in two parts, told with parties and contra brokers
//   1, 6  the client cancels it
//   2, 7  the client replaces it, and then it is filled
//   3, 8  the client cancels it too late, and asks for its status
//   4, 9  it is filled, the fill is corrected, and then busted
#include <quickfix/FileLog.h>
#include <quickfix/FileStore.h>
#include <quickfix/Session.h>
#include <quickfix/SessionSettings.h>
#include <quickfix/SocketAcceptor.h>
#include <quickfix/SocketInitiator.h>
#include <quickfix/fix42/NewOrderSingle.h>
#include <quickfix/fix42/OrderCancelReplaceRequest.h>
#include <quickfix/fix42/OrderCancelRequest.h>
#include <quickfix/fix42/OrderStatusRequest.h>
#include <quickfix/fix50sp2/ExecutionReport.h>
#include <quickfix/fix50sp2/OrderCancelReject.h>

#include <algorithm>
#include <chrono>
#include <iostream>
#include <map>
#include <mutex>
#include <string>
#include <thread>

using std::string;

std::mutex output;

void line(const string& head, string text) {
  std::replace(text.begin(), text.end(), '\001', '|');
  std::lock_guard<std::mutex> held(output);
  std::cout << head << ' ' << text << std::endl;
}

string type_of(const FIX::Message& message) { return message.getHeader().getField(35); }

string field(const FIX::Message& message, int tag) {
  return message.isSetField(tag) ? message.getField(tag) : string();
}

bool said_before(const FIX::Message& message) {
  return message.getHeader().isSetField(43) && message.getHeader().getField(43) == "Y";
}

// What both sides do alike: each message is a line.
class Side : public FIX::Application {
 public:
  void onCreate(const FIX::SessionID& id) override { session = id; }
  void onLogon(const FIX::SessionID&) override {
    line("logon", "");
    active = true;
  }
  void onLogout(const FIX::SessionID&) override {
    line("logout", "");
    active = false;
  }
  void toAdmin(FIX::Message& message, const FIX::SessionID&) override { reject(message); }
  void fromAdmin(const FIX::Message& message, const FIX::SessionID&) throw(
      FIX::FieldNotFound, FIX::IncorrectDataFormat, FIX::IncorrectTagValue,
      FIX::RejectLogon) override {
    reject(message);
  }
  void toApp(FIX::Message& message, const FIX::SessionID&) throw(FIX::DoNotSend) override {
    reject(message);
    if (!said_before(message)) line(">", message.toString());
  }
  void fromApp(const FIX::Message& message, const FIX::SessionID&) throw(
      FIX::FieldNotFound, FIX::IncorrectDataFormat, FIX::IncorrectTagValue,
      FIX::UnsupportedMessageType) override {
    reject(message);
    line("<", message.toString());
    took(message);
  }

  FIX::SessionID session;
  volatile bool active = false;

 protected:
  virtual void took(const FIX::Message& message) = 0;
  void send(FIX::Message message) { FIX::Session::sendToTarget(message, session); }

 private:
  void reject(const FIX::Message& message) {
    const string type = type_of(message);
    if (type == "3" || type == "j") line("!", message.toString());
  }
};

class Client : public Side {
 public:
  void order(int number) {
    FIX42::NewOrderSingle order(FIX::ClOrdID("C" + std::to_string(number)),
                                FIX::HandlInst('1'), FIX::Symbol("IBM"),
                                FIX::Side(number % 2 ? '1' : '2'), now(), FIX::OrdType('2'));
    order.setField(38, "100");
    order.setField(44, "10.5");
    order.setField(59, "0");
    order.setField(1, "ACCOUNT");
    order.setField(109, "FUND");
    order.setField(58, "order " + std::to_string(number));
    send(order);
  }

 private:
  static FIX::TransactTime now() { return FIX::TransactTime(FIX::UtcTimeStamp(), 3); }

  void took(const FIX::Message& report) override {
    const string order = field(report, 11);
    if (order.empty() || order[0] != 'C') return;
    const char kind = order.back() % 5;
    const FIX::Side side(report.getField(54)[0]);
    const bool placed = type_of(report) == "8" && field(report, 150) == "0" &&
                        field(report, 20) == "0";
    if (placed && (kind == '1' % 5 || kind == '3' % 5)) {
      FIX42::OrderCancelRequest cancel(FIX::OrigClOrdID(order), FIX::ClOrdID("X" + order),
                                       FIX::Symbol("IBM"), side, now());
      cancel.setField(38, "100");
      send(cancel);
    }
    if (placed && kind == '2' % 5) {
      FIX42::OrderCancelReplaceRequest replace(FIX::OrigClOrdID(order), FIX::ClOrdID("R" + order),
                                               FIX::HandlInst('1'), FIX::Symbol("IBM"), side,
                                               now(), FIX::OrdType('2'));
      replace.setField(38, "150");
      replace.setField(44, "10.75");
      replace.setField(59, "0");
      send(replace);
    }
    if (field(report, 150) == "2" && field(report, 20) == "0" && kind == '3' % 5)
      send(FIX42::OrderStatusRequest(FIX::ClOrdID(order), FIX::Symbol("IBM"), side));
  }
};

class Venue : public Side {
 private:
  struct Order {
    string id, quantity, price;
    char side;
  };

  std::map<string, Order> orders;
  int ids = 0;

  string next(const string& head) { return head + std::to_string(++ids); }

  // A report of an order: what happened, its status, and what is left and done.
  FIX50SP2::ExecutionReport report(const string& name, char kind, char status, const string& left,
                                   const string& done) {
    const Order& order = orders[name];
    FIX50SP2::ExecutionReport report(
        FIX::OrderID(order.id), FIX::ExecID(next("E")), FIX::ExecType(kind),
        FIX::OrdStatus(status), FIX::Side(order.side), FIX::LeavesQty(0), FIX::CumQty(0));
    report.setField(151, left);
    report.setField(14, done);
    report.setField(6, done == "0" ? "0" : order.price);
    report.setField(11, name);
    report.setField(55, "IBM");
    report.setField(38, order.quantity);
    report.setField(40, "2");
    report.setField(44, order.price);
    report.setField(FIX::TransactTime(FIX::UtcTimeStamp(), 3));
    return report;
  }

  FIX50SP2::ExecutionReport trade(const string& name, char status, const string& last,
                                  const string& left, const string& done) {
    FIX50SP2::ExecutionReport trade = report(name, 'F', status, left, done);
    trade.setField(32, last);
    trade.setField(31, orders[name].price);
    trade.setField(30, "XNYS");
    const char* const roles[][2] = {{"BROKER", "1"}, {"FUND", "3"}, {"CLEARER", "4"}, {"ME", "11"}};
    for (auto& role : roles) {
      FIX50SP2::ExecutionReport::NoPartyIDs party;
      party.setField(448, role[0]);
      party.setField(447, "D");
      party.setField(452, role[1]);
      if (role[1] == string("11")) {
        FIX50SP2::ExecutionReport::NoPartyIDs::NoPartySubIDs desk;
        desk.setField(523, "DESK");
        desk.setField(803, "4");
        party.addGroup(desk);
      }
      trade.addGroup(party);
    }
    FIX50SP2::ExecutionReport::NoContraBrokers contra;
    contra.setField(375, "CONTRA");
    contra.setField(437, last);
    trade.addGroup(contra);
    return trade;
  }

  void took(const FIX::Message& request) override {
    const string type = type_of(request);
    const string name = field(request, 11);
    const string old = field(request, 41);
    if (type == "D") {
      orders[name] = {next("O"), field(request, 38), field(request, 44), request.getField(54)[0]};
      send(report(name, '0', '0', "100", "0"));
      const char kind = name.back() % 5;
      if (kind == '0' % 5) {
        send(trade(name, '1', "40", "60", "40"));
        send(trade(name, '2', "60", "0", "100"));
      }
      if (kind == '4' % 5) {
        FIX50SP2::ExecutionReport fill = trade(name, '2', "100", "0", "100");
        send(fill);
        FIX50SP2::ExecutionReport correction = report(name, 'G', '1', "30", "70");
        correction.setField(19, fill.getField(17));
        correction.setField(32, "70");
        correction.setField(31, "10.25");
        send(correction);
        FIX50SP2::ExecutionReport bust = report(name, 'H', '0', "100", "0");
        bust.setField(19, correction.getField(17));
        send(bust);
      }
    } else if (type == "F" && old.back() % 5 == '1' % 5) {
      orders[name] = orders[old];
      for (char kind : {'6', '4'}) {
        FIX50SP2::ExecutionReport done = report(name, kind, kind, kind == '6' ? "100" : "0", "0");
        done.setField(41, old);
        send(done);
      }
    } else if (type == "F") {
      FIX50SP2::OrderCancelReject refused(FIX::OrderID(orders[old].id), FIX::ClOrdID(name),
                                          FIX::OrdStatus('2'), FIX::CxlRejResponseTo('1'));
      refused.setField(41, old);
      refused.setField(102, "0");
      refused.setField(58, "too late");
      send(refused);
      send(trade(old, '2', "100", "0", "100"));
    } else if (type == "G") {
      orders[name] = orders[old];
      orders[name].quantity = field(request, 38);
      orders[name].price = field(request, 44);
      FIX50SP2::ExecutionReport pending = report(old, 'E', 'E', "100", "0");
      send(pending);
      FIX50SP2::ExecutionReport replaced = report(name, '5', '0', "150", "0");
      replaced.setField(41, old);
      send(replaced);
      send(trade(name, '2', "150", "0", "150"));
    } else if (type == "H") {
      send(report(name, 'I', '2', "0", "100"));
    }
  }
};

int main(int count, char** words) {
  if (count < 3) return 2;
  FIX::SessionSettings settings(words[2]);
  FIX::FileStoreFactory stores(settings);
  FIX::FileLogFactory logs(settings);
  string text;
  if (string(words[1]) == "venue") {
    Venue venue;
    do {
      FIX::SocketAcceptor acceptor(venue, stores, settings, logs);
      acceptor.start();
      std::getline(std::cin, text);
      acceptor.stop();
    } while (std::cin);
  } else {
    Client client;
    FIX::SocketInitiator initiator(client, stores, settings, logs);
    initiator.start();
    const int orders = count > 3 ? std::stoi(words[3]) : 0;
    do {
      while (!client.active) std::this_thread::sleep_for(std::chrono::milliseconds(10));
      for (int number = 0; number < orders; ++number) {
        client.order(number);
        std::this_thread::sleep_for(std::chrono::milliseconds(50));
      }
      line("all", "orders are sent");
    } while (std::getline(std::cin, text));
    initiator.stop();
  }
  return 0;
}
