"""The least application of QuickFIX: it plays the side that its settings describe, and prints what
it gets and says, with | for SOH, until its input ends. From the top of the repository, with
QuickFIX's package for Python (`pip install quickfix`):

    python3 examples/quickfix/application.py examples/quickfix/initiator.cfg
"""
import sys

import quickfix


def show(head, text):
    print(head, text.replace("\x01", "|"), flush=True)


class Printing(quickfix.Application):
    def onCreate(self, session):
        pass

    def onLogon(self, session):
        show("logon", session.toString())

    def onLogout(self, session):
        show("logout", session.toString())

    def toAdmin(self, message, session):
        show(">", message.toString())

    def toApp(self, message, session):
        show(">", message.toString())

    def fromAdmin(self, message, session):
        show("<", message.toString())

    def fromApp(self, message, session):
        """An order or a report comes here: a program of yours reads its fields."""
        show("<", message.toString())


def main(path):
    settings = quickfix.SessionSettings(path)
    application = Printing()
    store = quickfix.FileStoreFactory(settings)
    log = quickfix.FileLogFactory(settings)
    acceptor = settings.get().getString("ConnectionType") == "acceptor"
    kind = quickfix.SocketAcceptor if acceptor else quickfix.SocketInitiator
    engine = kind(application, store, settings, log)
    engine.start()
    sys.stdin.read()
    engine.stop()


if __name__ == "__main__":
    main(sys.argv[1])
