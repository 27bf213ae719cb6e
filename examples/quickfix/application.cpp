// The least application of QuickFIX: it plays the side that its settings describe, and prints what
// it gets and says, with | for SOH, until its input ends. From the top of the repository:
//
//   g++ -std=c++14 -w -o application examples/quickfix/application.cpp -lquickfix -lpthread
//   ./application examples/quickfix/initiator.cfg
#include <quickfix/Application.h>
#include <quickfix/FileLog.h>
#include <quickfix/FileStore.h>
#include <quickfix/SessionSettings.h>
#include <quickfix/SocketAcceptor.h>
#include <quickfix/SocketInitiator.h>

#include <algorithm>
#include <iostream>
#include <limits>
#include <string>

void print(const std::string& head, std::string text) {
  std::replace(text.begin(), text.end(), '\001', '|');
  std::cout << head + ' ' + text + '\n' << std::flush;
}

class Printing : public FIX::Application {
 public:
  void onCreate(const FIX::SessionID&) override {}
  void onLogon(const FIX::SessionID& id) override { print("logon", id.toString()); }
  void onLogout(const FIX::SessionID& id) override { print("logout", id.toString()); }
  void toAdmin(FIX::Message& message, const FIX::SessionID&) override {
    print(">", message.toString());
  }
  void toApp(FIX::Message& message, const FIX::SessionID&) throw(FIX::DoNotSend) override {
    print(">", message.toString());
  }
  void fromAdmin(const FIX::Message& message, const FIX::SessionID&) throw(
      FIX::FieldNotFound, FIX::IncorrectDataFormat, FIX::IncorrectTagValue,
      FIX::RejectLogon) override {
    print("<", message.toString());
  }
  // An order or a report comes here: a program of yours reads its fields.
  void fromApp(const FIX::Message& message, const FIX::SessionID&) throw(
      FIX::FieldNotFound, FIX::IncorrectDataFormat, FIX::IncorrectTagValue,
      FIX::UnsupportedMessageType) override {
    print("<", message.toString());
  }
};

template <class Engine>
void play(Printing& application, const FIX::SessionSettings& settings) {
  FIX::FileStoreFactory store(settings);
  FIX::FileLogFactory log(settings);
  Engine engine(application, store, settings, log);
  engine.start();
  std::cin.ignore(std::numeric_limits<std::streamsize>::max(), EOF);
  engine.stop();
}

int main(int count, char** words) {
  if (count != 2) return 2;
  try {
    FIX::SessionSettings settings(words[1]);
    Printing application;
    if (settings.get().getString("ConnectionType") == "acceptor")
      play<FIX::SocketAcceptor>(application, settings);
    else
      play<FIX::SocketInitiator>(application, settings);
  } catch (const std::exception& fault) {
    std::cerr << fault.what() << std::endl;
    return 1;
  }
}
