package javacard.security;

public interface ECKey {
    void setFieldFP(byte[] buffer, short offset, short length);

    void setFieldF2M(short e);

    void setFieldF2M(short e1, short e2, short e3);

    short getField(byte[] buffer, short offset);

    void setA(byte[] buffer, short offset, short length);

    short getA(byte[] buffer, short offset);

    void setB(byte[] buffer, short offset, short length);

    short getB(byte[] buffer, short offset);

    void setG(byte[] buffer, short offset, short length);

    short getG(byte[] buffer, short offset);

    void setR(byte[] buffer, short offset, short length);

    short getR(byte[] buffer, short offset);

    void setK(short K);

    short getK();

    void copyDomainParametersFrom(ECKey ecKey);
}
